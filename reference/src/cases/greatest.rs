//! The greatest grey of a plate: numbers that are none, pixels above it, its place in
//! the order of the conditions, and sums beyond 32 bits.

use super::plates::{limited_to, meeting_later, operations, places_of, ring_of, small};
use super::{cleaning, on_record, Case, Plate};
use crate::LIGHT;

/// All of them.
pub fn cases(cases: &mut Vec<Case>) {
    for operation in operations() {
        numbers(&operation, cases);
        pixels_above(&operation, cases);
        order(&operation, cases);
    }
    large(cases);
    for (side, greatest) in [(0, 0), (3, 65_536), (u32::MAX, 49)] {
        for met in [0, 62] {
            let case = meeting_later(cleaning(side), 6, met);
            cases.push(case.with("greatest", greatest));
        }
    }
}

/// Plates on which the grey lost at one area, and the grey held, are above
/// 4,294,967,295: light all over but for the trim edge, and but for one pixel of it.
fn large(cases: &mut Vec<Case>) {
    let lost = |p| if ring_of(p, 1_027, 66) > 0 { 65_535 } else { 0 };
    let held = |p| if p > 0 { 65_535 } else { 0 };
    for plate in [
        Plate::new(1_027, 66, lost).up_to(65_535),
        Plate::new(1_027, 66, held).up_to(65_535),
    ] {
        let (n, record) = (plate.pixels(), plate.described(4).record);
        cases.push(plate.limited(cleaning(LIGHT), 4, 65_601));
        let sizes = on_record("sizes", &record, 8 * n);
        cases.push(sizes.with("counts", n).with("losses", n));
    }
}

/// Numbers that are no greatest grey; greatest greys below the greys of the small
/// plate, between them, and above.
fn numbers(operation: &Case<'static>, cases: &mut Vec<Case>) {
    let unfit = [0, 65_536, 65_791, u32::MAX];
    let fit = [1, 9, 49, 89, 90, 254, 256, 65_535];
    for greatest in unfit.into_iter().chain(fit) {
        let case = small(operation.clone(), 6, 2, 40);
        cases.push(case.with("greatest", greatest));
    }
}

/// One pixel above the greatest grey: the first, one between, the last; and none.
fn pixels_above(operation: &Case<'static>, cases: &mut Vec<Case>) {
    for (greatest, above) in [(1, 2), (300, 301), (65_534, 65_535)] {
        for at in [0, 5, 8, 9] {
            let grey = |p| if p == at { above } else { above - 1 };
            let plate = Plate::new(3, 3, grey).up_to(greatest);
            let case = plate.added_to(operation.clone(), 8);
            cases.push(places_of(limited_to(case, 2), 40));
        }
    }
}

/// 29 and 28 with each of the other conditions, and with all later ones. The bits are
/// those of `meeting_later`; the small plate has pixels above 49 and above 0.
fn order(operation: &Case<'static>, cases: &mut Vec<Case>) {
    let alone = [0, 2, 4, 8, 16, 32];
    let spoiled = |connectivity, greatest, met| {
        let case = meeting_later(operation.clone(), connectivity, met);
        case.with("greatest", greatest)
    };
    for met in alone.into_iter().chain([62, 60, 56, 48]) {
        cases.push(spoiled(4, 0, met));
        cases.push(spoiled(6, 49, met));
    }
    cases.push(spoiled(8, 65_536, 60));
    cases.extend([0, 49].map(|greatest| spoiled(5, greatest, 62)));
}
