//! A field of a record: an unsigned number as a varint of seven-bit groups,
//! lowest group first.

/// The shortest form of a number.
pub fn spelled(mut value: u32) -> Vec<u8> {
    let mut bytes = Vec::new();
    while value >= 128 {
        bytes.push((value % 128) as u8 + 128);
        value /= 128;
    }
    bytes.push(value as u8);
    bytes
}

/// Takes one field off the front of the bytes: its value and the bytes after
/// it, or 20 when no byte ends it, or 21 when it is not the shortest form of
/// a number below 4,294,967,296.
pub fn take_field(bytes: &[u8]) -> Result<(u32, &[u8]), u32> {
    let last = bytes.iter().position(|byte| *byte < 128).ok_or(20u32)?;
    let (field, behind) = bytes.split_at(last + 1);
    let value = value_of(field).ok_or(21u32)?;
    if spelled(value) != field {
        return Err(21);
    }
    Ok((value, behind))
}

/// The number that the groups spell, or None from 4,294,967,296 up.
fn value_of(field: &[u8]) -> Option<u32> {
    let mut value: u64 = 0;
    for (i, byte) in field.iter().enumerate() {
        let group = u64::from(byte % 128);
        if i < 5 {
            value += group << (7 * i);
        } else if group > 0 {
            return None;
        }
    }
    u32::try_from(value).ok()
}
