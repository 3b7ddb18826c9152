//! Reading a plate file, the binary form of PGM.

use crate::grid::{any_above, is_greatest, is_size};

/// The answer of reading a plate file.
#[derive(Clone, Copy, Debug, Default, PartialEq, Eq)]
pub struct PlateHead {
    pub refusal: u32,
    pub width: u32,
    pub height: u32,
    pub greatest: u32,
}

/// Reads a plate file into a plate.
pub fn read_pgm(file: &[u8], out: &mut [u16]) -> PlateHead {
    match read_checked(file, out) {
        Ok((width, height, greatest)) => PlateHead {
            refusal: 0,
            width,
            height,
            greatest,
        },
        Err(refusal) => PlateHead {
            refusal,
            ..PlateHead::default()
        },
    }
}

/// Reading with its conditions: 10, 11, 2, 12, 14, 15, 28, 5.
fn read_checked(file: &[u8], out: &mut [u16]) -> Result<Numbers, u32> {
    let (numbers, raster) = take_header(file)?;
    let (width, height, greatest) = numbers;
    if !is_size(width, height) {
        return Err(2);
    }
    if !is_greatest(greatest) {
        return Err(12);
    }
    let pixels = (width * height) as usize;
    let bytes = pixels * bytes_a_pixel(greatest);
    if raster.len() < bytes {
        return Err(14);
    }
    if raster.len() > bytes {
        return Err(15);
    }
    let plate = greys_of(raster, greatest);
    if any_above(&plate, greatest) {
        return Err(28);
    }
    if out.len() < pixels {
        return Err(5);
    }
    out[..pixels].copy_from_slice(&plate);
    Ok(numbers)
}

/// The bytes of a raster for each pixel: one up to a greatest grey of 255, then two.
pub fn bytes_a_pixel(greatest: u32) -> usize {
    if greatest < 256 {
        1
    } else {
        2
    }
}

/// The greys of a raster; of two bytes the high one comes first.
fn greys_of(raster: &[u8], greatest: u32) -> Vec<u16> {
    let pixels = raster.chunks(bytes_a_pixel(greatest));
    pixels
        .map(|bytes| {
            bytes
                .iter()
                .fold(0, |grey, &byte| grey * 256 + u16::from(byte))
        })
        .collect()
}

/// The answer of reading a header: its three numbers, and where the byte
/// after its last blank stands in the file.
#[derive(Clone, Copy, Debug, Default, PartialEq, Eq)]
pub struct Header {
    pub refusal: u32,
    pub width: u32,
    pub height: u32,
    pub greatest: u32,
    pub raster: usize,
}

/// Reads the header that begins at a place of a file: 10, 11. At the file's
/// end and beyond it there is none.
pub fn header_at(file: &[u8], at: usize) -> Header {
    match take_header(file.get(at..).unwrap_or(&[])) {
        Ok(((width, height, greatest), raster)) => Header {
            refusal: 0,
            width,
            height,
            greatest,
            raster: file.len() - raster.len(),
        },
        Err(refusal) => Header {
            refusal,
            ..Header::default()
        },
    }
}

/// The header's three numbers.
type Numbers = (u32, u32, u32);

/// Takes a header off the front, or 10, or 11; also hands back the bytes
/// after it.
fn take_header(bytes: &[u8]) -> Result<(Numbers, &[u8]), u32> {
    let bytes = bytes.strip_prefix(b"P5").ok_or(10u32)?;
    take_numbers(bytes).ok_or(11)
}

/// Takes gap, width, gap, height, gap, third number and one blank off the
/// front; also hands back the bytes after them.
fn take_numbers(bytes: &[u8]) -> Option<(Numbers, &[u8])> {
    let (width, bytes) = take_number(skip_gap(bytes)?)?;
    let (height, bytes) = take_number(skip_gap(bytes)?)?;
    let (greatest, bytes) = take_number(skip_gap(bytes)?)?;
    let (blank, raster) = bytes.split_first()?;
    is_blank(*blank).then_some(((width, height, greatest), raster))
}

/// A space, tab, CR or LF.
fn is_blank(byte: u8) -> bool {
    matches!(byte, b' ' | b'\t' | b'\r' | b'\n')
}

/// Skips a gap: one blank, then any mix of blanks and comments. None without
/// the blank, or when a comment does not end.
fn skip_gap(bytes: &[u8]) -> Option<&[u8]> {
    let mut at = 0;
    let mut in_comment = false;
    while at < bytes.len() {
        let byte = bytes[at];
        if in_comment {
            in_comment = byte != b'\r' && byte != b'\n';
        } else if byte == b'#' && at > 0 {
            in_comment = true;
        } else if !is_blank(byte) {
            break;
        }
        at += 1;
    }
    (at > 0 && !in_comment).then_some(&bytes[at..])
}

/// Takes a number of one to five digits; a longer run of digits is none.
pub fn take_number(bytes: &[u8]) -> Option<(u32, &[u8])> {
    let digits = bytes.iter().take_while(|b| b.is_ascii_digit()).count();
    if !(1..=5).contains(&digits) {
        return None;
    }
    let (number, behind) = bytes.split_at(digits);
    let value = number
        .iter()
        .fold(0, |value, digit| value * 10 + u32::from(digit - b'0'));
    Some((value, behind))
}
