//! Writing a record, cutting it and listing its sizes by one call: each
//! buffer that just fits and that just does not, alone and with others.

use super::{Case, Plate};
use crate::CONNECTIVITIES;

/// All of them.
pub fn cases(cases: &mut Vec<Case>) {
    let apart = [5, 0, 5, 0, 5];
    let plates = [
        Plate::small(),
        Plate::new(1, 1, |_| 7),
        Plate::new(5, 1, |p| apart[p as usize]),
        Plate::new(7, 7, |p| super::plates::ring_of(p, 7, 7) * 60),
        Plate::new(3, 3, |_| 255),
        Plate::new(8, 8, |p| ((p * p * 31 + p * 17 + 3) % 256) as u16),
        Plate::new(20, 9, |p| (p * 89 % 211) as u16),
    ];
    for plate in plates {
        for connectivity in CONNECTIVITIES {
            let ample = ample(&plate, connectivity);
            for limit in super::plates::limits(plate.pixels()) {
                cases.push(ample.clone().with("limit", limit));
            }
            lengths(&plate, connectivity, cases);
        }
    }
    short(cases);
}

/// A case with a little excess in every buffer.
pub fn ample(plate: &Plate, connectivity: u32) -> Case<'static> {
    let record = plate.described(connectivity).record;
    let limit = 2.min(plate.pixels() as u32);
    plate
        .limited(Case::new("joint"), connectivity, limit)
        .with("record", record.len() + 3)
        .with("counts", plate.pixels())
        .with("losses", plate.pixels() + 1)
}

/// The least places of each buffer.
fn least(plate: &Plate, connectivity: u32) -> [(&'static str, usize); 5] {
    let n = plate.pixels();
    [
        ("record", plate.described(connectivity).record.len()),
        ("out", n),
        ("counts", n - 1),
        ("losses", n - 1),
        ("work", 8 * n),
    ]
}

/// Just enough places in all buffers, and one less in each.
fn lengths(plate: &Plate, connectivity: u32, cases: &mut Vec<Case>) {
    let least = least(plate, connectivity);
    let exact = least
        .into_iter()
        .fold(ample(plate, connectivity), |case, (name, places)| {
            case.with(name, places)
        });
    cases.push(exact.clone());
    for (name, places) in least.into_iter().filter(|buffer| buffer.1 > 0) {
        cases.push(exact.clone().with(name, places - 1));
    }
}

/// Every set of short buffers, with a limit that is allowed and one that is
/// not.
fn short(cases: &mut Vec<Case>) {
    let least = least(&Plate::small(), 4);
    for limit in [3, 13] {
        for met in 0..32 {
            let mut case = ample(&Plate::small(), 4).with("limit", limit);
            for (i, (name, places)) in least.into_iter().enumerate() {
                if met >> i & 1 != 0 {
                    case = case.with(name, places - 1);
                }
            }
            cases.push(case);
        }
    }
}
