//! Plates on which the kinds of touch differ, and plates with light pixels that
//! touch only if an edge wraps.

use super::{cleaning, joint::ample, plates::with_columns, sides::pair, Case, Described, Plate};
use crate::{CONNECTIVITIES, LIGHT};

/// All of them.
pub fn cases(cases: &mut Vec<Case>) {
    for plate in plates() {
        for connectivity in CONNECTIVITIES {
            each_operation(&plate, connectivity, cases);
        }
    }
    two_pixels(cases);
}

/// Two light pixels, the second at the lower right of the first; two, the second
/// at the lower left; both in one plate; the four corners of a plate.
pub fn plates() -> [Plate; 4] {
    let falling = [0, 0, 0, 0, 0, 9, 0, 0, 0, 0, 9, 0];
    let rising = [0, 0, 0, 0, 0, 0, 9, 0, 0, 9, 0, 0];
    let corners = [9, 0, 0, 9, 0, 0, 0, 0, 9, 0, 0, 9];
    let of = |greys: [u16; 12]| Plate::new(4, 3, |p| greys[p as usize]);
    [of(falling), of(rising), told_apart(), of(corners)]
}

/// A plate with a different tree under each connectivity: 7 is at the upper left
/// of 9, and 8 at its lower left.
pub fn told_apart() -> Plate {
    let greys = [0, 7, 0, 0, 0, 0, 9, 0, 0, 8, 0, 0];
    Plate::new(4, 3, |p| greys[p as usize])
}

/// Each operation that takes a plate.
pub fn each_operation(plate: &Plate, connectivity: u32, cases: &mut Vec<Case>) {
    let Described { nodes, record, .. } = plate.described(connectivity);
    let case = |name| plate.case(name, connectivity);
    cases.extend(pair(plate, connectivity, 2));
    cases.push(case("maxima").with("out", plate.pixels()));
    cases.push(with_columns(case("nodes"), nodes));
    cases.push(case("entries").with("at", 1));
    cases.push(case("write").with("out", record.len()));
    cases.push(ample(plate, connectivity));
}

/// A plate of three rows and columns, with 9 at one pixel and a grey at another.
fn two(p: usize, q: usize, grey: u16) -> Plate {
    let mut plate = Plate::new(3, 3, |_| 0);
    plate.greys[p] = 9;
    plate.greys[q] = grey;
    plate
}

/// Every two pixels: of two greys, the darker is marked unless they touch; of one
/// grey and cleaned at limit 2, the middle pixel, which alone is off the trim edge,
/// stays when they touch.
fn two_pixels(cases: &mut Vec<Case>) {
    for p in 0..9 {
        for q in (0..9).filter(|&q| q != p) {
            let marked = two(p, q, 5).case("maxima", 6);
            cases.push(marked.with("out", 9));
        }
        for q in p + 1..9 {
            let equal = two(p, q, 9);
            cases.extend(CONNECTIVITIES.map(|c| equal.limited(cleaning(LIGHT), c, 2)));
        }
    }
}
