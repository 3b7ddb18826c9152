//! Records of the new form, damaged: cut short, lengthened, changed byte by byte and
//! field by field, with fronts of every kind, at the ends of the ranges.

use super::conversion::both;
use super::damage::{all, changed, other_records, read, spaced, truncated};
use super::{on_record, replaced, Case, Plate};
use crate::varint::spelled;

/// All of them.
pub fn cases(cases: &mut Vec<Case>) {
    let small = Plate::small().described(4).record;
    truncated(&small, cases);
    changed(&small, 0..5, cases);
    spaced(&small, 0..12, cases);
    sound(&small, cases);
    let wide = wide().described(4).record;
    truncated(&wide, cases);
    changed(&wide, 0..wide.len(), cases);
    reformed(&wide, cases);
    fronts(cases);
    ranged(cases);
    other_plates(cases);
}

/// A plate whose record has a greatest grey, a root level and a rise of three bytes.
pub fn wide() -> Plate {
    Plate::new(2, 1, |p| [20_000, 65_535][p as usize]).up_to(65_535)
}

/// A sound record of twelve pixels, with outputs that just fit and that just do not.
fn sound(record: &[u8], cases: &mut Vec<Case>) {
    for out in [11, 12] {
        cases.push(on_record("read", record, 96).with("out", out));
        for limit in [0, 1, 2, 12, 13] {
            let cut = on_record("cut", record, 96).with("limit", limit);
            cases.push(cut.with("out", out));
        }
    }
    for (counts, losses) in [(11, 11), (10, 11), (11, 10)] {
        let sizes = on_record("sizes", record, 96);
        cases.push(sizes.with("counts", counts).with("losses", losses));
    }
}

/// The bytes that spell these fields.
fn of_fields(fields: &[u32]) -> Vec<u8> {
    fields.iter().flat_map(|&field| spelled(field)).collect()
}

/// Each field not in its shortest form, too large, not ended, 0, the greatest of all.
fn reformed(record: &[u8], cases: &mut Vec<Case>) {
    let fields: Vec<&[u8]> = record.split_inclusive(|&byte| byte < 128).collect();
    for (i, field) in fields.iter().enumerate() {
        let (last, before) = field.split_last().expect("no field is empty");
        let forms: [&[u8]; 6] = [
            &[before, &[last | 128, 0]].concat(),
            &[before, &[last | 128, 128, 128, 0]].concat(),
            &[128, 128, 128, 128, 16],
            &[before, &[last | 128]].concat(),
            &[0],
            &spelled(u32::MAX),
        ];
        for form in forms {
            let mut fields = fields.clone();
            fields[i] = form;
            read(&fields.concat(), cases);
        }
        read(&[&fields[..i].concat(), &[128; 40][..]].concat(), cases);
    }
}

/// The small plate's old form behind other fronts, and fronts alone; by all
/// operations on a record.
fn fronts(cases: &mut Vec<Case>) {
    let old = Plate::small().described(4).old;
    let seconds = [0, 1, 3, 4, 127, 130, 258, u32::MAX].map(|second| [0, second, 255]);
    let greatest = [0, 1, 9, 10, 49, 89, 90, 91, 254, 256, 65_535, 65_536];
    let greatest = greatest.map(|greatest| [0, 2, greatest]);
    let others = [[0, 2, 65_791], [0, 2, u32::MAX], [1, 2, 255], [2, 0, 255]];
    for front in seconds.into_iter().chain(greatest).chain(others) {
        each(&[of_fields(&front), old.clone()].concat(), cases);
    }
    let front = of_fields(&[0, 2, 255]);
    each(&[&front[..], &front, &old].concat(), cases);
    let odd: [&[u8]; 16] = [
        &[0],
        &[0, 0],
        &[0, 2],
        &[0, 3],
        &[0, 3, 128, 0],
        &[0, 2, 0],
        &[0, 2, 128],
        &[0, 2, 128, 0],
        &[0, 2, 128, 128, 4],
        &[0, 2, 255, 129, 0],
        &[0, 2, 255, 255, 131, 0],
        &[0, 130, 0],
        &[0, 128],
        &[128, 0],
        &[128, 0, 2, 255, 1],
        &[128, 128, 0],
    ];
    for odd in odd {
        each(odd, cases);
        read(&[odd, &old].concat(), cases);
    }
}

/// Every operation on a record of up to 12 pixels.
fn each(record: &[u8], cases: &mut Vec<Case>) {
    all(record, cases);
    both(record, 31, 97, cases);
}

/// Root levels and rises at their ends, for greatest greys at theirs: two pixels of two
/// nodes, and one pixel.
fn ranged(cases: &mut Vec<Case>) {
    for m in [1, 2, 127, 128, 254, 256, 16_384, 65_535] {
        let pairs = [(0, m), (0, m + 1), (m - 1, 1), (m - 1, 2), (m, 1)];
        let outside = [(m + 1, 1), (0, 0), (0, u32::MAX)];
        for (level, rise) in pairs.into_iter().chain(outside) {
            let fields = [0, 2, m, 2, 1, 4, 2, level, 2, 1, rise, 1, 0, 1];
            read(&of_fields(&fields), cases);
        }
        for level in [0, m, m + 1] {
            let fields = [0, 2, m, 1, 1, 8, 1, level, 1, 0];
            let record = of_fields(&fields);
            read(&record, cases);
            both(&record, 31, 97, cases);
        }
    }
}

/// Fields in range that are no plate's record: 24 in the new form, too. And a wrong
/// area in the small plate's record, for several greatest greys.
fn other_plates(cases: &mut Vec<Case>) {
    for record in other_records() {
        for m in [255, 300] {
            each(&[&of_fields(&[0, 2, m])[..], record].concat(), cases);
        }
    }
    for m in [90, 255, 65_535] {
        let record = Plate::small().up_to(m).described(6).record;
        let last_area = record.len() - 13;
        each(&replaced(&record, last_area, &[2]), cases);
    }
}
