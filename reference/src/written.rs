//! Writing a plate file, in one form of those that are read.

use crate::grid::check_greys;
use crate::pgm::{bytes_a_pixel, take_number};
use crate::record::put;

/// The answer of writing a plate file.
#[derive(Clone, Copy, Debug, Default, PartialEq, Eq)]
pub struct FileLength {
    pub refusal: u32,
    pub length: usize,
}

/// Writes the plate file of a plate.
pub fn write_pgm(
    plate: &[u16],
    width: u32,
    height: u32,
    greatest: u32,
    out: &mut [u8],
) -> FileLength {
    match write_checked(plate, width, height, greatest, out) {
        Ok(length) => FileLength { refusal: 0, length },
        Err(refusal) => FileLength { refusal, length: 0 },
    }
}

/// Writing with its conditions: 2, 29, 3, 28, 5.
fn write_checked(
    plate: &[u16],
    width: u32,
    height: u32,
    greatest: u32,
    out: &mut [u8],
) -> Result<usize, u32> {
    check_greys(plate, width, height, greatest)?;
    let file = file_of(plate, width, height, greatest);
    put(&file, out)?;
    Ok(file.len())
}

/// The bytes of a plate's file: "P5", LF, width, one space, height, LF, greatest grey, LF
/// and the raster.
pub fn file_of(plate: &[u16], width: u32, height: u32, greatest: u32) -> Vec<u8> {
    let mut file = format!("P5\n{width} {height}\n{greatest}\n").into_bytes();
    for &grey in plate {
        match bytes_a_pixel(greatest) {
            1 => file.push(grey as u8),
            _ => file.extend([(grey / 256) as u8, (grey % 256) as u8]),
        }
    }
    file
}

/// Has a file the form that is written: "P5", LF, width, one space, height, LF, greatest
/// grey, LF, no leading zeros, and as many bytes behind as the raster takes?
pub fn has_written_form(file: &[u8]) -> bool {
    file.strip_prefix(b"P5\n")
        .and_then(take_plain_numbers)
        .is_some_and(|([width, height, greatest], raster)| {
            let bytes = u64::from(width) * u64::from(height) * bytes_a_pixel(greatest) as u64;
            raster.len() as u64 == bytes
        })
}

/// Takes width, one space, height, LF, greatest grey and LF off the front; also hands
/// back the bytes after them.
fn take_plain_numbers(bytes: &[u8]) -> Option<([u32; 3], &[u8])> {
    let (width, bytes) = take_plain_number(bytes, b' ')?;
    let (height, bytes) = take_plain_number(bytes, b'\n')?;
    let (greatest, raster) = take_plain_number(bytes, b'\n')?;
    Some(([width, height, greatest], raster))
}

/// Takes a number without a leading zero, and the one byte that is to follow it.
fn take_plain_number(bytes: &[u8], following: u8) -> Option<(u32, &[u8])> {
    let (number, behind) = take_number(bytes)?;
    let behind = behind.strip_prefix(&[following])?;
    (bytes[0] != b'0').then_some((number, behind))
}
