//! Records converted to the old and to the new form: of either form, sound and
//! damaged, with outputs and work spaces that just fit and that just do not.

use super::new_form::wide;
use super::{on_record, replaced, touch, Case, Described, Plate};
use crate::CONNECTIVITIES;

/// All of them; the kinds of touch take turns.
pub fn cases(cases: &mut Vec<Case>) {
    for (i, plate) in plates().iter().enumerate() {
        converted(plate, CONNECTIVITIES[i % 3], cases);
    }
    lengths(cases);
    other_greatest(cases);
    order(cases);
}

/// The record converted to either form, with these places in output and work space.
pub fn both(record: &[u8], out: usize, work: usize, cases: &mut Vec<Case>) {
    cases.extend(["old", "new"].map(|name| on_record(name, record, work).with("out", out)));
}

/// Plates with greatest grey 255.
fn plates() -> Vec<Plate> {
    let mut plates = vec![
        Plate::small(),
        Plate::new(1, 1, |_| 255),
        Plate::new(3, 3, |p| 255 * (p % 2) as u16),
        Plate::new(16, 9, |p| 128 + (p / 48) as u16),
    ];
    plates.extend(touch::plates());
    plates
}

/// Both forms of a plate's record, with places for the old form, for the new form and
/// for a byte less.
fn converted(plate: &Plate, connectivity: u32, cases: &mut Vec<Case>) {
    let described = plate.described(connectivity);
    let work = 8 * plate.pixels() + 1;
    for record in [&described.record, &described.old] {
        both(record, described.record.len(), work, cases);
    }
    both(&described.record, described.old.len(), work, cases);
    both(&described.old, described.old.len() - 1, work, cases);
}

/// The small plate's two forms, with outputs about either length, and with little
/// work space.
fn lengths(cases: &mut Vec<Case>) {
    let described = Plate::small().described(4);
    for record in [&described.record, &described.old] {
        for out in [0, 1, 26, 27, 28, 30, 31, 33] {
            both(record, out, 96, cases);
        }
        for work in [0, 95] {
            both(record, 31, work, cases);
            both(record, 0, work, cases);
        }
    }
}

/// Greatest greys other than 255 have no old form: 30, ahead of 5 and behind 6.
fn other_greatest(cases: &mut Vec<Case>) {
    let mut plates = vec![wide()];
    for greatest in [1, 2, 254, 256, 511, 65_535] {
        let grey = |p| if p == 4 { greatest as u16 } else { 0 };
        plates.push(Plate::new(3, 3, grey).up_to(greatest));
    }
    plates.extend([90, 254, 256, 65_535].map(|greatest| Plate::small().up_to(greatest)));
    for plate in plates {
        let record = plate.described(4).record;
        let work = 8 * plate.pixels();
        for out in [0, record.len() - 1, record.len(), record.len() + 2] {
            both(&record, out, work, cases);
        }
        both(&record, record.len(), work - 1, cases);
    }
}

/// 23, 24, 30, 5: each with all later conditions met, in either form; cut short with
/// little space.
fn order(cases: &mut Vec<Case>) {
    let Described { record, old, .. } = Plate::small().described(4);
    let other = Plate::small().up_to(256).described(4).record;
    for record in [record, old, other] {
        // the area of the last node stands ahead of the twelve pixels
        let wrong_area = replaced(&record, record.len() - 13, &[2]);
        for damaged in [&record, &wrong_area] {
            both(damaged, 0, 96, cases);
            both(&[&damaged[..], &[0]].concat(), 0, 96, cases);
        }
        for length in [0, 1, 3, 4, 7, 8, 9, record.len() - 1] {
            both(&record[..length], 0, 95, cases);
            both(&record[..length], 31, 96, cases);
        }
    }
}
