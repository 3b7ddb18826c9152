//! Damaged records of the old form: cut short, lengthened, changed byte by byte, with fields
//! out of form and out of range, with too little work space.

use std::ops::Range;

use super::{on_record, replaced, touch, Case, Plate, UNFIT};
use crate::varint::spelled;
use crate::CONNECTIVITIES;

/// All of them.
pub fn cases(cases: &mut Vec<Case>) {
    let plate = Plate::small();
    let record = plate.described(4).old;
    truncated(&record, cases);
    changed(&record, 0..27, cases);
    changed(&Plate::new(1, 1, |_| 7).described(4).old, 0..7, cases);
    reformed(&record, cases);
    ranged(&record, cases);
    spaced(&record, 0..8, cases);
    long_fields(cases);
    other_plates(cases);
    third_fields(cases);
    six(cases);
}

/// The record read, cut and listed, with room for 12 pixels.
pub fn all(record: &[u8], cases: &mut Vec<Case>) {
    cases.push(on_record("read", record, 97).with("out", 13));
    cases.push(
        on_record("cut", record, 96)
            .with("limit", 2)
            .with("out", 12),
    );
    let sizes = on_record("sizes", record, 98);
    cases.push(sizes.with("counts", 11).with("losses", 12));
}

/// The record read alone.
pub fn read(record: &[u8], cases: &mut Vec<Case>) {
    cases.push(on_record("read", record, 97).with("out", 12));
}

/// The record read, cut or listed with so many places for anything.
fn with_places(
    name: &'static str,
    record: &[u8],
    places: usize,
    work: usize,
    cases: &mut Vec<Case>,
) {
    let case = on_record(name, record, work);
    cases.push(match name {
        "sizes" => case.with("counts", places).with("losses", places),
        _ => case.with("out", places),
    });
}

/// Every truncation, and bytes after the end.
pub fn truncated(record: &[u8], cases: &mut Vec<Case>) {
    for length in 0..=record.len() {
        all(&record[..length], cases);
    }
    for byte in [0, 1, 127, 128, 255] {
        all(&[record, &[byte]].concat(), cases);
    }
    all(&[record, record].concat(), cases);
}

/// Every byte at these places changed to some values.
pub fn changed(record: &[u8], places: Range<usize>, cases: &mut Vec<Case>) {
    for i in places {
        let b = record[i];
        let mut values = vec![0, 1, 2, 3, 4, 6, 8, 127, 128, 132, 255];
        values.extend([b.wrapping_sub(1), b.wrapping_add(1), b ^ 128]);
        values.sort_unstable();
        values.dedup();
        for value in values.into_iter().filter(|&value| value != b) {
            let mut other = record.to_vec();
            other[i] = value;
            read(&other, cases);
        }
    }
}

/// Each field in forms that are not the shortest, or too large, or unended.
fn reformed(record: &[u8], cases: &mut Vec<Case>) {
    for i in 0..record.len() {
        let b = record[i];
        let forms: [&[u8]; 10] = [
            &[b | 128, 0],
            &[b | 128, 128, 0],
            &[b | 128, 128, 128, 128, 0],
            &[b | 128, 128, 128, 128, 16],
            &[255, 255, 255, 255, 15],
            &[128, 128, 128, 128, 128, 0],
            &[128, 128, 128, 128, 128, 1],
            &[255, 255, 255, 255, 255, 255, 255, 255, 255, 1],
            &[128; 12],
            &[b | 128],
        ];
        all(&replaced(record, i, forms[0]), cases);
        for form in forms {
            read(&replaced(record, i, form), cases);
        }
        read(&[&record[..i], &[128; 40]].concat(), cases);
    }
}

/// Fields just inside and just outside their ranges.
fn ranged(record: &[u8], cases: &mut Vec<Case>) {
    let sizes: [&[u8]; 9] = [
        &[0, 3],
        &[4, 0],
        &[128, 128, 2, 1],
        &[129, 128, 2, 1],
        &[1, 129, 128, 2],
        &[128, 128, 2, 128, 4],
        &[128, 128, 2, 129, 4],
        &[128, 32, 128, 32],
        &[129, 32, 128, 32],
    ];
    for size in sizes {
        read(&[size, &record[2..]].concat(), cases);
        read(size, cases);
    }
    let places = [
        (2, 300),
        (3, 12),
        (3, 13),
        (4, 255),
        (4, 256),
        (5, 12),
        (5, 13),
        (13, 246),
        (13, 245),
    ];
    for (place, value) in places {
        all(&replaced(record, place, &spelled(value)), cases);
    }
}

/// Little work space: 6 stands after the node count and ahead of the rest.
pub fn spaced(record: &[u8], lengths: Range<usize>, cases: &mut Vec<Case>) {
    for length in lengths {
        for work in [0, 95] {
            with_places("read", &record[..length], 12, work, cases);
        }
    }
    for name in ["read", "cut", "sizes"] {
        for work in [0, 1, 95, 96] {
            with_places(name, record, 0, work, cases);
            with_places(name, &[record, &[0]].concat(), 12, work, cases);
        }
    }
}

/// A record with fields of two bytes, cut short and changed in many places.
fn long_fields(cases: &mut Vec<Case>) {
    let plate = Plate::new(20, 9, |p| (p * 89 % 211) as u16);
    let record = plate.described(8).old;
    let every = |step: usize| (0..record.len()).filter(move |at| at % step == 0 || at % 150 == 0);
    for length in every(23) {
        with_places("read", &record[..length], 180, 1_440, cases);
    }
    for i in every(34) {
        let mut other = record.clone();
        other[i] ^= 1;
        with_places("read", &other, 180, 1_441, cases);
    }
    with_places("read", &record, 181, 1_440, cases);
}

/// Records of the old form whose fields are in range, most of them no plate's: 24.
pub fn other_records() -> [&'static [u8]; 8] {
    [
        // one pixel, a node without a pixel
        &[1, 1, 4, 2, 7, 1, 1, 1, 1, 0],
        // two pixels of one grey as two nodes
        &[2, 1, 4, 2, 7, 2, 1, 1, 1, 1, 1],
        // the right record of two pixels, and one with the nodes' areas exchanged
        &[2, 1, 4, 2, 7, 2, 1, 3, 1, 0, 1],
        &[2, 1, 4, 2, 7, 1, 1, 3, 2, 0, 1],
        // nodes out of their order
        &[3, 1, 4, 3, 1, 3, 1, 9, 1, 2, 4, 1, 1, 0, 2],
        &[3, 1, 4, 3, 1, 3, 1, 4, 1, 2, 9, 1, 2, 0, 1],
        // the same bytes for the other connectivities
        &[2, 2, 8, 3, 0, 4, 1, 5, 1, 2, 5, 1, 1, 0, 0, 2],
        &[2, 2, 6, 3, 0, 4, 1, 5, 1, 2, 5, 1, 1, 0, 0, 2],
    ]
}

/// Those records read, cut and listed.
fn other_plates(cases: &mut Vec<Case>) {
    for record in other_records() {
        all(record, cases);
        // 24 stands ahead of 4 and 5
        for name in ["read", "cut", "sizes"] {
            with_places(name, record, 0, 97, cases);
        }
    }
}

/// The third field: each connectivity, in records for each; and numbers that are
/// no connectivity.
fn third_fields(cases: &mut Vec<Case>) {
    for plate in touch::plates() {
        let mut records = Vec::new();
        for connectivity in CONNECTIVITIES {
            let record = plate.described(connectivity).old;
            records.extend(CONNECTIVITIES.map(|other| replaced(&record, 2, &[other as u8])));
        }
        records.sort_unstable();
        records.dedup();
        for record in records {
            all(&record, cases);
        }
    }
    let record = touch::told_apart().described(6).old;
    for number in UNFIT {
        all(&replaced(&record, 2, &spelled(number)), cases);
    }
    // 22 of the third field stands ahead of the end and of little work space
    for number in [5, 6, 7] {
        for length in [3, 4] {
            let begun = replaced(&record[..length], 2, &[number]);
            with_places("read", &begun, 12, 0, cases);
        }
    }
}

/// Records of connectivity 6: cut short, lengthened, each field not in its
/// shortest form and out of its range, little work space.
fn six(cases: &mut Vec<Case>) {
    let plate = Plate::new(2, 2, |p| if p % 3 == 0 { 9 } else { 0 });
    let record = plate.described(6).old;
    truncated(&record, cases);
    for i in 0..record.len() {
        all(&replaced(&record, i, &[record[i] | 128, 0]), cases);
        all(&replaced(&record, i, &spelled(u32::MAX)), cases);
    }
    spaced(&touch::told_apart().described(6).old, 0..8, cases);
}
