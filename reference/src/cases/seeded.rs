//! Plates from a seed: many seeds, many sizes, outputs that just fit and that just do not,
//! sizes beyond the grid; and the files of such plates, written and read back.

use super::files::{file_of, read};
use super::written::{beyond_the_grid, written};
use super::{Case, Plate};
use crate::seeded::{plate_of_seed, PLUS, STATES};

/// All of them.
pub fn cases(cases: &mut Vec<Case>) {
    let first_states = FIRST_STATES.map(leading_to);
    for seed in SEEDS.into_iter().chain(first_states) {
        cases.push(seeded(seed, (4, 3), 12));
    }
    sizes(cases);
    lengths(cases);
    beyond(cases);
    within(cases);
    files(cases);
}

/// The plate of a seed, of a width and a height, into an output of so many places.
fn seeded(seed: u32, (width, height): (u32, u32), places: usize) -> Case<'static> {
    Case::new("seeded")
        .with("seed", seed)
        .with("width", width)
        .with("height", height)
        .with("out", places)
}

/// Seeds: small ones, powers of 2 and numbers beside them, the greatest, some without
/// order. With 682 the sum of the first step is above 2,147,483,648 and with 681 it is
/// not, its product likewise with 1,291 and 1,290; the sum is above 4,294,967,296 with
/// 1,972 and not with 1,971, the product with 2,581 and not with 2,580.
const SEEDS: [u32; 32] = [
    0,
    1,
    2,
    3,
    127,
    128,
    255,
    256,
    681,
    682,
    1_290,
    1_291,
    1_971,
    1_972,
    2_580,
    2_581,
    12_345,
    65_535,
    65_536,
    0x00ff_ffff,
    0x0100_0000,
    0x1234_5678,
    0x3c6e_f35f,
    0x7fff_fffe,
    0x7fff_ffff,
    0x8000_0000,
    0x8000_0001,
    0xdead_beef,
    0xff00_0000,
    0xffff_0000,
    u32::MAX - 1,
    u32::MAX,
];

/// First states at both ends of all 32 bits, and of the top eight bits 0, 127, 128, 255.
const FIRST_STATES: [u32; 10] = [
    0,
    1,
    0x00ff_ffff,
    0x0100_0000,
    0x7fff_ffff,
    0x8000_0000,
    0xfeff_ffff,
    0xff00_0000,
    u32::MAX - 1,
    u32::MAX,
];

/// The seed whose first state is this. The step's multiplier times 4,276,115,653 is 1 by
/// the remainder that a step takes.
fn leading_to(state: u32) -> u32 {
    let product = (u64::from(state) + STATES - PLUS) % STATES;
    (product * 4_276_115_653 % STATES) as u32
}

/// Sizes of all kinds with two seeds; a row and a column of more than 256 pixels.
fn sizes(cases: &mut Vec<Case>) {
    let small = [(1, 1), (2, 1), (1, 2), (4, 1), (1, 4), (2, 2), (4, 3)];
    let larger = [(3, 4), (7, 5), (17, 3), (1, 40), (40, 1), (16, 16)];
    for size in small.into_iter().chain(larger) {
        for seed in [0, 0xcafe_f00d] {
            cases.push(seeded(seed, size, pixels(size)));
        }
    }
    for size in [(257, 1), (1, 257)] {
        cases.push(seeded(0x8765_4321, size, pixels(size)));
    }
}

/// The number of pixels.
fn pixels((width, height): (u32, u32)) -> usize {
    width as usize * height as usize
}

/// Outputs longer than the pixels, by much too, and shorter.
fn lengths(cases: &mut Vec<Case>) {
    for (seed, size) in [
        (0, (1, 1)),
        (1, (4, 1)),
        (2, (2, 2)),
        (u32::MAX, (4, 3)),
        (99, (1, 5)),
        (0x8000_0000, (7, 5)),
    ] {
        let needed = pixels(size);
        for places in [needed + 1, needed + 7, needed - 1, needed / 2, 0] {
            cases.push(seeded(seed, size, places));
        }
    }
    for (size, places) in [
        ((2, 2), 69_000),
        ((32_768, 1), 32_767),
        ((300, 230), 68_999),
    ] {
        cases.push(seeded(7, size, places));
    }
}

/// Sizes beyond the grid, with an output that holds the product wrapped to 32 bits where
/// it is 12 at most, and with none.
fn beyond(cases: &mut Vec<Case>) {
    let most = u32::MAX;
    let more = [(most, 0), (most, 1), (1, most), (4_096, 4_097)];
    for size in beyond_the_grid().chain(more) {
        cases.extend([12, 0].map(|places| seeded(5, size, places)));
    }
}

/// The largest sizes within the grid, with outputs that are far too short.
fn within(cases: &mut Vec<Case>) {
    let areas = [(32_768, 512), (512, 32_768), (4_096, 4_096)];
    for size in areas.into_iter().chain([(32_768, 1), (1, 32_768)]) {
        cases.extend([3, 0].map(|places| seeded(6, size, places)));
    }
}

/// The files of plates from seeds, written and read back into outputs that just fit; up to
/// 12 pixels also into outputs that are a place short.
fn files(cases: &mut Vec<Case>) {
    for (seed, (width, height)) in [
        (0, (4, 1)),
        (0, (2, 2)),
        (0, (1, 4)),
        (1, (1, 1)),
        (2, (4, 3)),
        (0x7fff_ffff, (3, 4)),
        (0x8000_0000, (7, 5)),
        (u32::MAX, (17, 3)),
        (12_345, (1, 40)),
        (0xdead_beef, (12, 12)),
    ] {
        let greys = plate_of_seed(seed, width, height);
        let plate = Plate::new(width, height, |p| greys[p as usize]);
        let file = file_of(&plate);
        cases.push(seeded(seed, (width, height), plate.pixels()));
        cases.push(written(&plate, file.len()));
        cases.push(read(&file, plate.pixels()));
        if plate.pixels() <= 12 {
            cases.push(written(&plate, file.len() - 1));
            cases.push(read(&file, plate.pixels() - 1));
        }
    }
}
