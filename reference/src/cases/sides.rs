//! Cleaning by its side: sides that are neither, and pairs of a plate cleaned
//! on the light side and its negative on the dark side.

use super::plates::{meeting, meeting_later};
use super::{cleaning, Case, Plate};
use crate::{CONNECTIVITIES, DARK, LIGHT};

/// All of them.
pub fn cases(cases: &mut Vec<Case>) {
    neither(cases);
    for plate in plates() {
        for connectivity in CONNECTIVITIES {
            cases.extend(pair(&plate, connectivity, 3));
        }
    }
}

/// Sides that are neither: with no later condition met, with each alone, with
/// all; with connectivity 5, 6 and 7 and all conditions behind 1.
fn neither(cases: &mut Vec<Case>) {
    let sets = [0, 1, 2, 4, 8, 16, 32, 63];
    for side in [0, 3, u32::MAX] {
        cases.extend(sets.map(|met| meeting(cleaning(side), met)));
        for connectivity in [5, 6, 7] {
            cases.push(meeting_later(cleaning(side), connectivity, 62));
        }
    }
}

/// Patches that touch only by corners; a light and a dark speck on a slope;
/// greys from 0 to 255 without order.
fn plates() -> [Plate; 3] {
    let corners = [0, 0, 9, 9, 0, 9, 9, 0, 9, 0, 0, 9];
    let specks = [20, 40, 60, 255, 40, 60, 80, 60, 0, 80, 100, 80];
    [
        Plate::new(4, 3, |p| corners[p as usize]),
        Plate::new(4, 3, |p| specks[p as usize]),
        Plate::new(6, 4, |p| (p * 7 % 16 * 17) as u16),
    ]
}

/// The plate on the light side and its negative on the dark side.
pub fn pair(plate: &Plate, connectivity: u32, limit: u32) -> [Case<'static>; 2] {
    let negative = plate.negative();
    [(LIGHT, plate), (DARK, &negative)]
        .map(|(side, plate)| plate.limited(cleaning(side), connectivity, limit))
}
