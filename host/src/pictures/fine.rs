//! Pictures of 16-bit greys, for the benchmarks.

use super::{corridor, next, relief, SEED};
use crate::{Plate, MAX_GREATEST};

/// The greatest grey.
const GREATEST: u16 = MAX_GREATEST as u16;

/// The names of the pictures.
pub const FINE_KINDS: [&str; 6] = [
    "noise",
    "relief",
    "ramp",
    "checkerboard",
    "serpentine",
    "comb",
];

/// The picture of a kind, whose greatest grey is 65,535.
///
/// # Panics
///
/// Where no picture has that name.
pub fn fine_picture(kind: &str, width: u32, height: u32) -> Plate {
    let greys = greys(kind, width as usize, height as usize);
    Plate::new(width, height, MAX_GREATEST, greys)
}

/// The greys of the picture of a kind, row by row.
fn greys(kind: &str, width: usize, height: usize) -> Vec<u16> {
    let pixels = width * height;
    let by_pixel = |grey: &dyn Fn(usize, usize) -> u16| {
        let greys = (0..pixels).map(|p| grey(p % width, p / width));
        greys.collect()
    };
    match kind {
        "noise" => {
            let mut state = SEED;
            (0..pixels).map(|_| next(&mut state) as u16).collect()
        }
        "relief" => {
            let greys = relief::relief(width, height);
            let finer = f32::from(GREATEST) / 255.0;
            greys.iter().map(|grey| (grey * finer) as u16).collect()
        }
        "ramp" => (0..pixels).map(|p| part(p, pixels)).collect(),
        "checkerboard" => by_pixel(&|x, y| GREATEST * ((x + y + 1) % 2) as u16),
        // lighter and lighter along the corridor
        "serpentine" => by_pixel(&|x, y| match corridor(x, y, width) {
            0 => 0,
            _ => part(way(x, y, width), pixels).max(1),
        }),
        // light above, and teeth that darken downwards with black between them
        "comb" => by_pixel(&|x, y| match (x % 2, y) {
            (_, 0) => GREATEST,
            (0, _) => part(height - y, height),
            _ => 0,
        }),
        _ => panic!("no picture is called {kind}"),
    }
}

/// The grey of step `i` of so many from black to the greatest grey.
fn part(i: usize, steps: usize) -> u16 {
    (i * usize::from(GREATEST) / (steps - 1).max(1)).min(usize::from(GREATEST)) as u16
}

/// How far along the corridor a pixel of it is, at most.
fn way(x: usize, y: usize, width: usize) -> usize {
    let along = if y % 4 < 2 { x } else { width - 1 - x };
    y * width + along
}
