//! Plates by chance with greatest greys of every kind, for every operation.

use super::conversion::both;
use super::files::{file_of, read, text};
use super::touch::each_operation;
use super::{cleaning, on_record, Case, Chance, Plate};
use crate::{CONNECTIVITIES, SIDES};

/// All of them; the kinds of touch take turns.
pub fn cases(cases: &mut Vec<Case>) {
    for (i, plate) in plates().iter().enumerate() {
        let connectivity = CONNECTIVITIES[i % 3];
        each_operation(plate, connectivity, cases);
        cleaned(plate, connectivity, cases);
        recorded(plate, connectivity, cases);
        let file = file_of(plate);
        cases.push(read(&file, plate.pixels()));
        cases.push(text(&file));
    }
}

/// Plates of a few greys from 0 to the greatest, which is rather often among them.
fn plates() -> Vec<Plate> {
    let mut chance = Chance(9);
    let shapes = [
        (4, 4, 1),
        (5, 4, 2),
        (3, 5, 3),
        (6, 5, 254),
        (5, 5, 255),
        (5, 6, 256),
        (4, 5, 257),
        (6, 6, 300),
        (5, 5, 16_384),
        (7, 4, 40_000),
        (7, 6, 65_534),
        (6, 5, 65_535),
        (7, 6, 65_535),
        (3, 3, 65_535),
    ];
    let mut plate = |(width, height, greatest)| {
        let mut palette = vec![0, greatest];
        palette.extend([1, 2, 3].map(|_| chance.below(65_536) % (greatest + 1)));
        let grey = |_| palette[chance.below(5) as usize] as u16;
        Plate::new(width, height, grey).up_to(greatest)
    };
    shapes.map(&mut plate).into()
}

/// Both sides, at limits about half the pixels off the trim edge and at the full limit.
fn cleaned(plate: &Plate, connectivity: u32, cases: &mut Vec<Case>) {
    for limit in [3, 6, plate.pixels() as u32] {
        cases.extend(SIDES.map(|side| plate.limited(cleaning(side), connectivity, limit)));
    }
}

/// The record read, cut, listed and converted.
fn recorded(plate: &Plate, connectivity: u32, cases: &mut Vec<Case>) {
    let record = plate.described(connectivity).record;
    let n = plate.pixels();
    cases.push(on_record("read", &record, 8 * n).with("out", n + 1));
    for limit in [2, n] {
        let cut = on_record("cut", &record, 8 * n).with("limit", limit);
        cases.push(cut.with("out", n));
    }
    let sizes = on_record("sizes", &record, 8 * n + 1);
    cases.push(sizes.with("counts", n - 1).with("losses", n));
    both(&record, record.len(), 8 * n, cases);
}
