//! Cases on plates and on their records: every operation, limits of every
//! kind, buffers that just fit and that just do not, every set of conditions.

use super::{cleaning, on_record, Case, Chance, Described, Plate, UNFIT};
use crate::{CONNECTIVITIES, LIGHT, SIDES};

/// All of them.
pub fn cases(cases: &mut Vec<Case>) {
    for plate in plates() {
        for connectivity in CONNECTIVITIES {
            cleaned(&plate, connectivity, cases);
            listed(&plate, connectivity, cases);
            recorded(&plate, connectivity, cases);
        }
    }
    entries(cases);
    parameters(cases);
    conditions(cases);
    large(cases);
}

/// The small plate and one pixel; equal greys apart; the edges; a peak on a
/// step; a checkerboard; nested rings; one grey; a column; random greys.
fn plates() -> Vec<Plate> {
    let apart = [5, 0, 5, 0, 5];
    let edges = [0, 0, 9, 9, 0, 0];
    let steps = [10, 30, 50, 30, 10];
    let mut chance = Chance(1);
    vec![
        Plate::small(),
        Plate::new(1, 1, |_| 7),
        Plate::new(5, 1, |p| apart[p as usize]),
        Plate::new(3, 2, |p| edges[p as usize]),
        Plate::new(1, 5, |p| steps[p as usize]),
        Plate::new(5, 5, |p| if (p / 5 + p % 5) % 2 == 0 { 200 } else { 100 }),
        Plate::new(7, 7, |p| ring(p) * 60),
        Plate::new(6, 7, |p| 255 - ring_of(p, 6, 7) * 85),
        Plate::new(3, 3, |_| 255),
        Plate::new(2, 4, |_| 0),
        Plate::new(1, 9, |p| 250 - 30 * p as u16),
        Plate::new(6, 5, |_| (chance.below(4) * 85) as u16),
        Plate::new(8, 8, |p| ((p * p * 31 + p * 17 + 3) % 256) as u16),
        Plate::new(13, 10, |p| ((p * 7 + p / 13 * 5) % 11 * 25) as u16),
    ]
}

/// How far a pixel of a 7 x 7 plate is from the nearest edge.
fn ring(p: u32) -> u16 {
    ring_of(p, 7, 7)
}

pub fn ring_of(p: u32, width: u32, height: u32) -> u16 {
    let (x, y) = (p % width, p / width);
    x.min(y).min(width - 1 - x).min(height - 1 - y) as u16
}

/// Limits from 0 to the pixels and one more: the ends and some between.
pub fn limits(pixels: usize) -> Vec<u32> {
    let n = pixels as u32;
    let mut limits = vec![0, 1, 2, 3, n / 2, n.saturating_sub(1), n, n + 1];
    limits.sort_unstable();
    limits.dedup();
    limits
}

/// Both sides cleaned, marks.
fn cleaned(plate: &Plate, connectivity: u32, cases: &mut Vec<Case>) {
    for limit in limits(plate.pixels()) {
        cases.extend(SIDES.map(|side| plate.limited(cleaning(side), connectivity, limit)));
    }
    let case = plate.case("maxima", connectivity);
    cases.push(case.with("out", plate.pixels() + 1));
}

/// The columns of the node list.
const COLUMNS: [&str; 4] = ["levels", "parents", "areas", "anchors"];

/// The case with so many places in each column.
pub fn with_columns(case: Case<'static>, places: usize) -> Case<'static> {
    COLUMNS
        .into_iter()
        .fold(case, |case, column| case.with(column, places))
}

/// The node list: some excess, just enough places, a column short; as entries.
fn listed(plate: &Plate, connectivity: u32, cases: &mut Vec<Case>) {
    let nodes = plate.described(connectivity).nodes;
    let case = plate.case("nodes", connectivity);
    cases.push(with_columns(case.clone(), nodes + 1));
    let exact = with_columns(case, nodes);
    cases.push(exact.clone());
    for column in COLUMNS {
        cases.push(exact.clone().with(column, nodes - 1));
    }
    for at in [0, nodes - 1, nodes] {
        cases.push(plate.case("entries", connectivity).with("at", at));
    }
}

/// The record: written, read; in the old form read, cut, its sizes listed.
fn recorded(plate: &Plate, connectivity: u32, cases: &mut Vec<Case>) {
    let Described { record, old, .. } = plate.described(connectivity);
    let n = plate.pixels();
    for places in [record.len() - 1, record.len(), record.len() + 3] {
        cases.push(plate.case("write", connectivity).with("out", places));
    }
    cases.push(on_record("read", &record, 8 * n).with("out", n));
    for places in [n - 1, n, n + 2] {
        cases.push(on_record("read", &old, 8 * n + 1).with("out", places));
    }
    let cut = on_record("cut", &old, 8 * n);
    for limit in limits(n) {
        cases.push(cut.clone().with("limit", limit).with("out", n + 1));
    }
    for limit in [0, 1, n as u32 + 1] {
        cases.push(cut.clone().with("limit", limit).with("out", n - 1));
    }
    let enough = n - 1;
    let short = enough.saturating_sub(1);
    for (counts, losses) in [(enough, enough), (n, n + 1), (short, n), (n, short)] {
        let sizes = on_record("sizes", &old, 8 * n + 3);
        cases.push(sizes.with("counts", counts).with("losses", losses));
    }
}

/// Lists of entries: as many nodes as the six places, one grey in two places,
/// one node too many, places in the list and beyond it.
fn entries(cases: &mut Vec<Case>) {
    let apart = [7, 200, 7, 200, 7, 9];
    let plates = [
        Plate::new(6, 1, |p| [0, 1, 2, 3, 4, 255][p as usize]),
        Plate::new(3, 2, |p| apart[p as usize]),
        Plate::new(1, 7, |p| p as u16),
        Plate::small(),
    ];
    for plate in plates {
        for at in [0, 1, 2, 3, 4, 5, 6, 7, 65_536, u32::MAX] {
            cases.push(plate.case("entries", 4).with("at", at));
        }
        for connectivity in [6, 8] {
            for work in [0, 8 * plate.pixels() - 1, 8 * plate.pixels()] {
                cases.push(plate.case("entries", connectivity).with("work", work));
            }
        }
    }
}

/// The operations on a plate, cleaning once for each side: cases that still
/// lack the plate.
pub fn operations() -> impl Iterator<Item = Case<'static>> {
    let others = ["maxima", "nodes", "entries", "write", "joint"];
    SIDES.map(cleaning).into_iter().chain(others.map(Case::new))
}

/// An operation's case on the small plate, with these places for anything.
pub fn small(begun: Case<'static>, connectivity: u32, limit: u32, places: usize) -> Case<'static> {
    let case = Plate::small().added_to(begun, connectivity);
    places_of(limited_to(case, limit), places)
}

/// The case with this limit, if its operation takes one.
pub fn limited_to(case: Case<'static>, limit: u32) -> Case<'static> {
    match case.name {
        "clean" | "joint" => case.with("limit", limit),
        _ => case,
    }
}

/// The case with so many places for each of its outputs.
pub fn places_of(case: Case<'static>, places: usize) -> Case<'static> {
    let outputs: &[&'static str] = match case.name {
        "nodes" => &COLUMNS,
        "entries" => &[],
        "joint" => &["record", "out", "counts", "losses"],
        _ => &["out"],
    };
    let outputs = outputs.iter();
    outputs.fold(case, |case, output| case.with(output, places))
}

/// Numbers beyond what is allowed, one at a time, for each operation; and each
/// connectivity.
fn parameters(cases: &mut Vec<Case>) {
    let most = u32::MAX;
    for operation in operations() {
        let base = || small(operation.clone(), 4, 2, 40);
        for connectivity in UNFIT.into_iter().chain(CONNECTIVITIES) {
            cases.push(base().with("connectivity", connectivity));
        }
        let sizes = [
            (0, 3),
            (4, 0),
            (32_769, 1),
            (1, 32_769),
            (32_768, 513),
            (4_097, 4_096),
        ];
        let wrapped = [
            (65_536, 65_536),
            (most, most),
            (2_147_483_649, 2),
            (3, 4),
            (12, 1),
            (2, 6),
        ];
        for (width, height) in sizes.into_iter().chain(wrapped) {
            cases.push(base().with("width", width).with("height", height));
        }
        for limit in [0, 13, 65_536, most] {
            cases.push(limited_to(base(), limit));
        }
        for places in [0, 1, 11, 12] {
            cases.push(places_of(base(), places));
        }
        for work in [0, 1, 95, 96] {
            cases.push(base().with("work", work));
        }
        for length in [0, 1, 11, 13] {
            let mut greys = Plate::small().greys;
            greys.resize(length, 10);
            cases.push(base().painted(&greys));
        }
    }
}

/// Every set of the conditions at once: the first in the specification's
/// order decides. With connectivity 6 none of them, each alone and each with all
/// later ones; with 5 and with 7 all later ones.
fn conditions(cases: &mut Vec<Case>) {
    let chosen = [0, 2, 4, 8, 16, 32, 48, 56, 60, 62].map(|met| (6, met));
    for operation in operations() {
        cases.extend((0..64).map(|met| meeting(operation.clone(), met)));
        for (connectivity, met) in chosen.into_iter().chain([(5, 62), (7, 62)]) {
            cases.push(meeting_later(operation.clone(), connectivity, met));
        }
    }
}

/// An operation's case on the small plate that meets the conditions 1 to 6
/// whose bits are set; for 1 the numbers that are no connectivity take turns.
pub fn meeting(begun: Case<'static>, met: u32) -> Case<'static> {
    let connectivity = match met % 2 {
        0 => 8,
        _ => UNFIT[met as usize / 2 % UNFIT.len()],
    };
    meeting_later(begun, connectivity, met)
}

/// The same for the conditions 2 to 6, with this connectivity.
pub fn meeting_later(begun: Case<'static>, connectivity: u32, met: u32) -> Case<'static> {
    let places = if met & 16 != 0 { 3 } else { 30 };
    let mut case = small(begun, connectivity, 3, places);
    if met & 2 != 0 {
        case = case.with("height", 0);
    }
    if met & 4 != 0 {
        case = case.painted(&Plate::small().greys[..11]);
    }
    if met & 8 != 0 {
        case = limited_to(case, 0);
    }
    if met & 32 != 0 {
        case = case.with("work", 95);
    }
    case
}

/// Patches of about 65,536 pixels off the trim edge, the first so many pixels of 64 rows
/// of 1,025 in a border, at limits about 65,536.
fn large(cases: &mut Vec<Case>) {
    for patch in [65_535, 65_536, 65_537] {
        let plate = Plate::new(1_027, 66, |p| {
            let (row, column) = (p / 1_027, p % 1_027);
            let inside = (1..65).contains(&row) && (1..1_026).contains(&column);
            if inside && 1_025 * (row - 1) + column - 1 < patch {
                200
            } else {
                10
            }
        });
        let n = plate.pixels();
        for limit in [1, 255, 256, 65_535, 65_536, 65_537] {
            cases.push(plate.limited(cleaning(LIGHT), 4, limit));
        }
        let Described { nodes, record, old } = plate.described(8);
        cases.push(with_columns(plate.case("nodes", 8), nodes));
        cases.push(plate.case("entries", 8).with("at", 1));
        cases.push(plate.case("write", 8).with("out", record.len()));
        let cut = on_record("cut", &old, 8 * n);
        cases.push(cut.with("limit", 65_536).with("out", n));
        let sizes = on_record("sizes", &old, 8 * n);
        cases.push(sizes.with("counts", n).with("losses", n));
    }
}
