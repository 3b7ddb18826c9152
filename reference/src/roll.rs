//! Rolls: plate files one after the other.

use crate::pgm::{bytes_a_pixel, read_pgm, PlateHead};

/// The answer of counting the plates of a roll.
#[derive(Clone, Copy, Debug, Default, PartialEq, Eq)]
pub struct PlateCount {
    pub refusal: u32,
    pub count: usize,
}

/// The number of plates of a roll.
pub fn roll_count(file: &[u8]) -> PlateCount {
    match plates_of(file) {
        Ok(plates) => PlateCount {
            refusal: 0,
            count: plates.len(),
        },
        Err(refusal) => PlateCount { refusal, count: 0 },
    }
}

/// Reads the plate of a number, counted from 0, out of a roll.
pub fn roll_plate(file: &[u8], number: usize, out: &mut [u16]) -> PlateHead {
    match chosen(file, number, out.len()) {
        Ok(plate) => {
            out[..plate.greys.len()].copy_from_slice(&plate.greys);
            plate.head
        }
        Err(refusal) => PlateHead {
            refusal,
            ..PlateHead::default()
        },
    }
}

/// The plate of a number for an output of so many places: the conditions of all plates,
/// then 25, 5.
fn chosen(file: &[u8], number: usize, places: usize) -> Result<RollPlate, u32> {
    let plate = plates_of(file)?.into_iter().nth(number).ok_or(25u32)?;
    if places < plate.greys.len() {
        return Err(5);
    }
    Ok(plate)
}

/// The answer of reading the plate at a place: its three numbers, where its raster's first
/// byte stands in the file, and where the byte after its raster's last.
#[derive(Clone, Copy, Debug, Default, PartialEq, Eq)]
pub struct PlacedPlate {
    pub refusal: u32,
    pub width: u32,
    pub height: u32,
    pub greatest: u32,
    pub raster: usize,
    pub end: usize,
}

/// Judges the plate that begins at a place of a file as one of a roll. At the file's end
/// and beyond it there is none.
pub fn plate_at(file: &[u8], at: usize) -> PlacedPlate {
    match first_plate(file.get(at..).unwrap_or(&[])) {
        Ok(RollPlate {
            head,
            greys,
            length,
        }) => PlacedPlate {
            refusal: 0,
            width: head.width,
            height: head.height,
            greatest: head.greatest,
            raster: at + length - greys.len() * bytes_a_pixel(head.greatest),
            end: at + length,
        },
        Err(refusal) => PlacedPlate {
            refusal,
            ..PlacedPlate::default()
        },
    }
}

/// A plate of a roll, and the number of bytes of its file.
pub struct RollPlate {
    pub head: PlateHead,
    pub greys: Vec<u16>,
    length: usize,
}

/// The plates of a roll in order, or the number of the first faulty one.
pub fn plates_of(file: &[u8]) -> Result<Vec<RollPlate>, u32> {
    let mut plates = Vec::new();
    let mut rest = file;
    while !rest.is_empty() {
        let plate = first_plate(rest)?;
        rest = &rest[plate.length..];
        plates.push(plate);
    }
    Ok(plates)
}

/// The plate with which the bytes begin: of all their front parts, the one that reads as a
/// plate when it stands alone. Where the raster of one is right but for a pixel above the
/// greatest grey, 28; where none has its raster, what the bytes are refused with as one
/// file: 10, 11, 2, 12, 14.
fn first_plate(bytes: &[u8]) -> Result<RollPlate, u32> {
    let mut greys = vec![0; bytes.len()];
    for length in 0..=bytes.len() {
        let head = read_pgm(&bytes[..length], &mut greys);
        if head.refusal == 28 {
            return Err(28);
        }
        if head.refusal == 0 {
            greys.truncate((head.width * head.height) as usize);
            return Ok(RollPlate {
                head,
                greys,
                length,
            });
        }
    }
    Err(read_pgm(bytes, &mut greys).refusal)
}
