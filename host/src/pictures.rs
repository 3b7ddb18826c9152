//! Generated plates, for the demonstration, the tests and the benchmarks. The same arguments give the same plate.

mod fine;
mod relief;

use crate::Plate;
pub use fine::{fine_picture, FINE_KINDS};
pub use relief::specked_relief;

/// The names of the pictures.
pub const KINDS: [&str; 6] = [
    "noise",
    "terrain",
    "ramp",
    "flat",
    "checkerboard",
    "serpentine",
];

/// The picture of a kind.
///
/// # Panics
///
/// Where no picture has that name.
pub fn picture(kind: &str, width: u32, height: u32) -> Plate {
    let (columns, rows) = (width as usize, height as usize);
    let greys = match kind {
        "noise" => noise(columns * rows),
        "terrain" => terrain(columns, rows),
        "ramp" => by_pixel(columns, rows, |x, y| {
            ((x + y) * 255 / (columns + rows - 2).max(1)) as u8
        }),
        "flat" => vec![128; columns * rows],
        "checkerboard" => by_pixel(columns, rows, |x, y| 255 * ((x + y + 1) % 2) as u8),
        "serpentine" => by_pixel(columns, rows, |x, y| corridor(x, y, columns)),
        _ => panic!("no picture is called {kind}"),
    };
    Plate::from_bytes(width, height, &greys)
}

fn by_pixel(width: usize, height: usize, grey: impl Fn(usize, usize) -> u8) -> Vec<u8> {
    (0..width * height)
        .map(|p| grey(p % width, p / width))
        .collect()
}

/// A light corridor that runs to and fro between dark walls.
fn corridor(x: usize, y: usize, width: usize) -> u8 {
    let open = match y % 4 {
        0 | 2 => true,
        1 => x == width - 1,
        _ => x == 0,
    };
    if open {
        255
    } else {
        0
    }
}

/// Where a row of numbers by chance begins.
pub const SEED: u64 = 88_172_645_463_325_252;

/// The next of a row of numbers that look like chance (xorshift).
pub fn next(state: &mut u64) -> u32 {
    *state ^= *state << 13;
    *state ^= *state >> 7;
    *state ^= *state << 17;
    (*state >> 33) as u32
}

/// Greys by chance.
fn noise(pixels: usize) -> Vec<u8> {
    let mut state = SEED;
    (0..pixels).map(|_| next(&mut state) as u8).collect()
}

/// Hills: noise on finer and finer grids, each weaker than the last, down to cells of one pixel.
fn terrain(width: usize, height: usize) -> Vec<u8> {
    let mut heights = vec![0f32; width * height];
    let mut cell = (width.max(height) / 2).max(2);
    let mut strength = 1f32;
    while cell >= 1 {
        add_octave(&mut heights, width, cell, strength);
        cell /= 2;
        strength *= 0.55;
    }
    let least = heights.iter().copied().fold(f32::MAX, f32::min);
    let greatest = heights.iter().copied().fold(f32::MIN, f32::max);
    let scale = 255.999 / (greatest - least).max(1e-9);
    heights
        .iter()
        .map(|h| ((h - least) * scale) as u8)
        .collect()
}

/// Adds noise that is given at the corners of square cells and runs evenly between them.
fn add_octave(heights: &mut [f32], width: usize, cell: usize, strength: f32) {
    for (p, height) in heights.iter_mut().enumerate() {
        let (x, y) = (p % width, p / width);
        let (column, row) = (x / cell, y / cell);
        let (right, down) = (
            (x % cell) as f32 / cell as f32,
            (y % cell) as f32 / cell as f32,
        );
        let corner = |dx, dy| by_chance(column + dx, row + dy, cell);
        let upper = corner(0, 0) * (1.0 - right) + corner(1, 0) * right;
        let lower = corner(0, 1) * (1.0 - right) + corner(1, 1) * right;
        *height += strength * (upper * (1.0 - down) + lower * down);
    }
}

/// A number from 0 to 1 that looks like chance, by column, row and cell.
fn by_chance(column: usize, row: usize, cell: usize) -> f32 {
    let mut z = (column as u64).wrapping_mul(0x9E37_79B9_7F4A_7C15)
        ^ (row as u64).wrapping_mul(0xC2B2_AE3D_27D4_EB4F)
        ^ (cell as u64).wrapping_mul(0x1656_67B1_9E37_79F9);
    z = (z ^ (z >> 29)).wrapping_mul(0xBF58_476D_1CE4_E5B9);
    z = (z ^ (z >> 32)).wrapping_mul(0x94D0_49BB_1331_11EB);
    ((z ^ (z >> 29)) >> 40) as f32 / (1u32 << 24) as f32
}
