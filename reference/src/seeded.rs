//! Test plates from a seed.

use crate::grid::is_size;
use crate::Done;

/// A step multiplies the state by this.
pub const TIMES: u64 = 1_664_525;
/// Then it adds this.
pub const PLUS: u64 = 1_013_904_223;
/// Then it takes the remainder by this, so that 32 bits are left.
pub const STATES: u64 = 1 << 32;

/// Writes the plate of a seed. Its greatest grey is 255.
pub fn seeded_plate(seed: u32, width: u32, height: u32, out: &mut [u16]) -> Done {
    if let Err(refusal) = check_size(width, height, out) {
        return Done { refusal };
    }
    let plate = plate_of_seed(seed, width, height);
    out[..plate.len()].copy_from_slice(&plate);
    Done::default()
}

/// The conditions of a plate from a seed: 2, 5.
fn check_size(width: u32, height: u32, out: &[u16]) -> Result<(), u32> {
    if !is_size(width, height) {
        return Err(2);
    }
    if out.len() < (width * height) as usize {
        return Err(5);
    }
    Ok(())
}

/// The greys of a seed's plate: for each pixel, row by row, a step, and then the top
/// eight of the new state's 32 bits.
pub fn plate_of_seed(seed: u32, width: u32, height: u32) -> Vec<u16> {
    let mut plate = Vec::new();
    let mut state = u64::from(seed);
    for _row in 0..height {
        for _column in 0..width {
            state = (state * TIMES + PLUS) % STATES;
            plate.push((state / (1 << 24)) as u16);
        }
    }
    plate
}
