//! The trim edge. Plates with a border one pixel wide, whose patches lie off the
//! edge, so that the limits decide; random plates, with and without hills; each
//! pixel of a plate by itself; corner neighbours on the edge.

use super::files::{file_of, text};
use super::joint::ample;
use super::plates::ring_of;
use super::touch::told_apart;
use super::{cleaning, on_record, Case, Chance, Plate};
use crate::{CONNECTIVITIES, DARK, LIGHT, SIDES};

/// All of them.
pub fn cases(cases: &mut Vec<Case>) {
    for (plate, connectivities) in inner_plates() {
        let n = plate.pixels() as u32;
        for framed in frames(&plate) {
            for &connectivity in connectivities {
                cleaned(&framed, connectivity, &[2, 3, n, n + 1], cases);
                recorded(&framed, connectivity, &[2, n + 1], cases);
            }
            cases.push(text(&file_of(&framed)));
        }
    }
    for plate in random_plates() {
        let n = plate.pixels() as u32;
        for connectivity in CONNECTIVITIES {
            cleaned(&plate, connectivity, &[1, 2, 3, 5, 9, n], cases);
            recorded(&plate, connectivity, &[2, 4, n - 1], cases);
        }
        cases.push(text(&file_of(&plate)));
    }
    every_limit(cases);
    single_pixels(cases);
    corner_neighbours(cases);
}

/// Plates to be framed, each with the connectivities to be used: the small plate;
/// light pixels at the ends of two rows; plates on which the kinds of touch differ;
/// equal greys apart in a row; steps in a column.
fn inner_plates() -> [(Plate, &'static [u32]); 6] {
    let of = |width, height, greys: &[u16]| Plate::new(width, height, |p| greys[p as usize]);
    [
        (Plate::small(), &CONNECTIVITIES),
        (of(3, 2, &[0, 0, 9, 9, 0, 0]), &CONNECTIVITIES),
        (told_apart(), &CONNECTIVITIES),
        (of(5, 2, &[9, 0, 0, 0, 9, 0, 8, 0, 8, 0]), &CONNECTIVITIES),
        (of(5, 1, &[5, 0, 5, 0, 5]), &[4]),
        (of(1, 5, &[10, 30, 50, 30, 10]), &[8]),
    ]
}

/// The plate, its greys one higher, in a border darker than all of them, lighter
/// than all, and of their darkest.
fn frames(plate: &Plate) -> [Plate; 3] {
    let raised = Plate::new(plate.width, plate.height, |p| plate.greys[p as usize] + 1);
    let darkest = raised.greys.iter().copied().min().unwrap_or(1);
    let lightest = raised.greys.iter().copied().max().unwrap_or(1);
    [darkest - 1, lightest + 1, darkest].map(|grey| framed(&raised, grey))
}

/// The plate in a border of this grey.
fn framed(plate: &Plate, grey: u16) -> Plate {
    let (width, height) = (plate.width + 2, plate.height + 2);
    Plate::new(width, height, |p| match ring_of(p, width, height) {
        0 => grey,
        _ => plate.greys[((p / width - 1) * plate.width + p % width - 1) as usize],
    })
}

/// Random plates: of few greys, and on hills, where each pixel is higher the
/// farther it is from the edge; one of them a negative.
fn random_plates() -> [Plate; 5] {
    let mut chance = Chance(3);
    let mut plate = |width, height, hill: u16, greys: u32| {
        Plate::new(width, height, |p| {
            ring_of(p, width, height) * hill + chance.below(greys) as u16
        })
    };
    [
        plate(5, 5, 2, 3),
        plate(6, 5, 0, 4),
        plate(7, 6, 3, 4),
        plate(5, 9, 2, 4).negative(),
        plate(9, 7, 1, 3),
    ]
}

/// Both sides cleaned at these limits.
fn cleaned(plate: &Plate, connectivity: u32, limits: &[u32], cases: &mut Vec<Case>) {
    for &limit in limits {
        cases.extend(SIDES.map(|side| plate.limited(cleaning(side), connectivity, limit)));
    }
}

/// The record cut at these limits and its sizes listed; record, cut at 3 and size
/// list by one call.
fn recorded(plate: &Plate, connectivity: u32, limits: &[u32], cases: &mut Vec<Case>) {
    let record = plate.described(connectivity).old;
    let n = plate.pixels();
    for &limit in limits {
        let cut = on_record("cut", &record, 8 * n).with("limit", limit);
        cases.push(cut.with("out", n));
    }
    let sizes = on_record("sizes", &record, 8 * n);
    cases.push(sizes.with("counts", n - 1).with("losses", n - 1));
    cases.push(ample(plate, connectivity).with("limit", 3));
}

/// A hill of 6 x 5 with a hollow, at every limit; the kinds of touch take turns.
fn every_limit(cases: &mut Vec<Case>) {
    let greys = [
        [4, 4, 2, 3, 4, 4],
        [4, 5, 6, 7, 1, 4],
        [2, 7, 0, 9, 6, 3],
        [4, 1, 8, 6, 5, 4],
        [4, 4, 3, 4, 4, 2],
    ]
    .concat();
    let plate = Plate::new(6, 5, |p| greys[p as usize]);
    for limit in 1..=30 {
        let connectivity = CONNECTIVITIES[limit as usize % 3];
        cleaned(&plate, connectivity, &[limit], cases);
    }
}

/// One lighter pixel, at each place of a plate of 4 x 4, and one darker pixel.
fn single_pixels(cases: &mut Vec<Case>) {
    for at in 0..16 {
        let connectivity = CONNECTIVITIES[at as usize % 3];
        let light = Plate::new(4, 4, |p| if p == at { 9 } else { 5 });
        cases.push(light.limited(cleaning(LIGHT), connectivity, 16));
        let dark = light.negative();
        cases.push(dark.limited(cleaning(DARK), connectivity, 16));
    }
}

/// A light pixel off the edge and its corner neighbour on the edge, of one grey.
fn corner_neighbours(cases: &mut Vec<Case>) {
    for (inner, corner) in [(5, 0), (6, 3), (9, 12), (10, 15)] {
        let plate = Plate::new(4, 4, |p| if p == inner || p == corner { 9 } else { 5 });
        let cleaned = |c| plate.limited(cleaning(LIGHT), c, 2);
        cases.extend(CONNECTIVITIES.map(cleaned));
    }
}
