//! Records against the second program: written, read, cut, listed and converted, in both forms, whole and damaged, with
//! buffers short and long.

mod common;

use common::{Chance, Plate, Seen};
use livukoe::{lent, Connectivity};

const CASES: u64 = 60_000;
const EXTENT: usize = 5;

/// The record of a plate, by the second program.
fn record_of(plate: &Plate) -> Vec<u8> {
    let mut out = vec![0; 32 + 16 * plate.pixels()];
    let mut work = vec![0; 8 * plate.pixels()];
    let (w, h, m, c) = plate.numbers();
    let answer = reference::write_record(&plate.greys, w, h, m, c, &mut out, &mut work);
    out.truncate(answer.length);
    out
}

/// The old form of a record, by the second program; the record itself where it has none.
fn old_form_of(record: Vec<u8>, pixels: usize) -> Vec<u8> {
    let (mut out, mut work) = (vec![0; record.len()], vec![0; 8 * pixels]);
    let answer = reference::to_old_form(&record, &mut out, &mut work);
    match answer.refusal {
        0 => out[..answer.length].to_vec(),
        _ => record,
    }
}

#[test]
fn writing() {
    let (mut chance, mut seen) = (Chance::new(8), Seen::default());
    for case in 0..CASES {
        let plate = chance.job(EXTENT);
        let mut out = chance.buffer(record_of(&plate).len());
        let mut work = chance.buffer(8 * plate.pixels());
        let (mut out2, mut work2) = (out.clone(), work.clone());
        let (w, h, m, c) = plate.numbers();
        let answer = lent::write_record(plate.image(), &mut out, &mut work);
        let wanted = reference::write_record(&plate.greys, w, h, m, c, &mut out2, &mut work2);
        assert_eq!(
            (answer.refusal, answer.length),
            (wanted.refusal, wanted.length),
            "case {case}: {plate:?}"
        );
        assert_eq!(out, out2, "case {case}: {plate:?}");
        assert_eq!(work, work2, "case {case}: {plate:?}");
        seen.note(answer.refusal);
    }
    seen.assert_all(&[0, 1, 2, 3, 5, 6, 28, 29]);
}

/// A record of either form, damaged more often than not, and the pixels of the plate that it came from.
fn damaged(chance: &mut Chance) -> (Vec<u8>, usize) {
    let plate = chance.plate(EXTENT);
    let mut record = record_of(&plate);
    if chance.one_in(2) {
        record = old_form_of(record, plate.pixels());
    }
    if !chance.one_in(3) {
        chance.damage(&mut record);
    }
    (record, plate.pixels())
}

/// Compares reading a record into buffers for so many pixels; the refusal.
fn compare_reading(chance: &mut Chance, record: &[u8], pixels: usize) -> u32 {
    let mut out = chance.buffer(pixels);
    let mut work = chance.buffer(8 * pixels);
    let (mut out2, mut work2) = (out.clone(), work.clone());
    let answer = lent::read_record(record, &mut out, &mut work);
    let wanted = reference::read_record(record, &mut out2, &mut work2);
    assert_same(record, answer, wanted);
    assert_eq!((out, work), (out2, work2), "{record:?}");
    answer.refusal
}

#[test]
fn reading() {
    let (mut chance, mut seen) = (Chance::new(9), Seen::default());
    for _ in 0..CASES {
        let (record, pixels) = damaged(&mut chance);
        seen.note(compare_reading(&mut chance, &record, pixels));
    }
    seen.assert_all(&[0, 5, 6, 20, 21, 22, 23, 24]);
}

/// The third field of the old form is a connectivity, 4, 6 or 8, and so is the sixth of the new one.
#[test]
fn connectivities() {
    for connectivity in 0..128 {
        let old = [1, 1, connectivity, 1, 7, 1, 0];
        for record in [&old[..], &[&[0, 2, 100], &old[..]].concat()] {
            let answer = lent::read_record(record, &mut [0], &mut [0; 8]);
            let wanted = match connectivity {
                4 | 6 | 8 => (0, u32::from(connectivity)),
                _ => (22, 0),
            };
            assert_eq!((answer.refusal, answer.connectivity), wanted);
        }
    }
}

/// Every first and second byte, and the two as the whole record.
#[test]
fn fields_in_front() {
    let (mut chance, mut seen) = (Chance::new(22), Seen::default());
    for front in 0..=u16::MAX {
        let front = front.to_be_bytes();
        let record = [&front[..], &[255, 1, 1, 1, 4, 1, 7, 1, 0]].concat();
        for record in [&record[..], &front] {
            seen.note(compare_reading(&mut chance, record, 1));
        }
    }
    for (record, refusal) in [
        (&[0][..], 20),
        (&[0, 3], 22),
        (&[128, 0], 21),
        (&[0, 130, 0], 21),
        (&[0, 2], 20),
        (&[0, 2, 0], 22),
    ] {
        let answer = lent::read_record(record, &mut [0], &mut [0; 8]);
        assert_eq!(answer.refusal, refusal, "{record:?}");
    }
    seen.assert_all(&[0, 20, 21, 22]);
}

/// The bytes of a field.
fn field(mut value: u32) -> Vec<u8> {
    let mut bytes = Vec::new();
    while value > 127 {
        bytes.push(128 + (value % 128) as u8);
        value /= 128;
    }
    bytes.push(value as u8);
    bytes
}

/// Every greatest grey up to beyond the greatest, with its root level at it and one above it.
#[test]
fn greatest_greys() {
    for greatest in (0..70_000u32).chain([u32::MAX]) {
        for level in [greatest, greatest.saturating_add(1)] {
            let front = [&[0, 2], &field(greatest)[..], &[1, 1, 4, 1]].concat();
            let record = [&front[..], &field(level), &[1, 0]].concat();
            let mut out = [0];
            let answer = lent::read_record(&record, &mut out, &mut [0; 8]);
            let right = (1..=65_535).contains(&greatest) && level == greatest;
            let wanted = if right {
                (0, greatest, level)
            } else {
                (22, 0, 0)
            };
            assert_eq!((answer.refusal, answer.greatest, out[0].into()), wanted);
        }
    }
}

#[test]
fn cutting() {
    let (mut chance, mut seen) = (Chance::new(10), Seen::default());
    for _ in 0..CASES {
        let (record, pixels) = damaged(&mut chance);
        let limit = chance.limit(pixels);
        let mut out = chance.buffer(pixels);
        let mut work = chance.buffer(8 * pixels);
        let (mut out2, mut work2) = (out.clone(), work.clone());
        let answer = lent::cut_record(&record, limit, &mut out, &mut work);
        let wanted = reference::cut_record(&record, limit, &mut out2, &mut work2);
        assert_same(&record, answer, wanted);
        assert_eq!((out, work), (out2, work2), "{record:?}, {limit}");
        seen.note(answer.refusal);
    }
    seen.assert_all(&[0, 4, 5, 6, 20, 21, 22, 23, 24]);
}

fn assert_same(record: &[u8], answer: lent::RecordHead, wanted: reference::RecordHead) {
    let lent::RecordHead {
        refusal,
        width,
        height,
        greatest,
        connectivity,
    } = answer;
    let got = reference::RecordHead {
        refusal,
        width,
        height,
        greatest,
        connectivity,
    };
    assert_eq!(got, wanted, "{record:?}");
}

#[test]
fn listing_sizes() {
    let (mut chance, mut seen) = (Chance::new(11), Seen::default());
    for _ in 0..CASES {
        let (record, pixels) = damaged(&mut chance);
        let mut counts = chance.buffer(pixels - 1);
        let mut losses = chance.buffer(pixels - 1);
        let mut work = chance.buffer(8 * pixels);
        let (mut counts2, mut losses2, mut work2) = (counts.clone(), losses.clone(), work.clone());
        let answer = lent::size_list(&record, &mut counts, &mut losses, &mut work);
        let wanted = reference::size_list(&record, &mut counts2, &mut losses2, &mut work2);
        let wanted = lent::SizeHead {
            refusal: wanted.refusal,
            width: wanted.width,
            height: wanted.height,
            greatest: wanted.greatest,
            connectivity: wanted.connectivity,
            nodes: wanted.nodes,
            darkest: u32::from(wanted.darkest),
            held: wanted.held,
        };
        assert_eq!(answer, wanted, "{record:?}");
        assert_eq!(
            (counts, losses, work),
            (counts2, losses2, work2),
            "{record:?}"
        );
        seen.note(answer.refusal);
    }
    seen.assert_all(&[0, 5, 6, 20, 21, 22, 23, 24]);
}

/// Converts a record into an output, in a work space.
type Conversion<L> = fn(&[u8], &mut [u8], &mut [u32]) -> L;

/// Compares a conversion of records of both forms, whole and damaged.
fn compare_converting(
    seed: u64,
    proved: Conversion<lent::RecordLength>,
    reference: Conversion<reference::RecordLength>,
    refusals: &[u32],
) {
    let (mut chance, mut seen) = (Chance::new(seed), Seen::default());
    for _ in 0..CASES {
        let (record, pixels) = damaged(&mut chance);
        let length = match record.first() {
            Some(0) => record.len().saturating_sub(4 * chance.below(2)),
            _ => record.len() + 4 * chance.below(2),
        };
        let mut out = chance.buffer(length);
        let mut work = chance.buffer(8 * pixels);
        let (mut out2, mut work2) = (out.clone(), work.clone());
        let answer = proved(&record, &mut out, &mut work);
        let wanted = reference(&record, &mut out2, &mut work2);
        assert_eq!(
            (answer.refusal, answer.length),
            (wanted.refusal, wanted.length),
            "{record:?}"
        );
        assert_eq!((out, work), (out2, work2), "{record:?}");
        seen.note(answer.refusal);
    }
    seen.assert_all(refusals);
}

#[test]
fn converting_to_the_old_form() {
    compare_converting(
        23,
        lent::record_to_old,
        reference::to_old_form,
        &[0, 5, 6, 20, 21, 22, 23, 24, 30],
    );
}

#[test]
fn converting_to_the_new_form() {
    compare_converting(
        24,
        lent::record_to_new,
        reference::to_new_form,
        &[0, 5, 6, 20, 21, 22, 23, 24],
    );
}

/// A short output is looked for after the greatest grey, and nothing is written to it.
#[test]
fn no_old_form() {
    let record = [0, 2, 100, 1, 1, 4, 1, 7, 1, 0];
    for places in [0, 6, 7, 20] {
        let (mut out, mut work) = (vec![77; places], vec![77; 9]);
        let answer = lent::record_to_old(&record, &mut out, &mut work);
        assert_eq!((answer.refusal, answer.length), (30, 0));
        assert_eq!(out, vec![77; places]);
        assert_eq!(work, [0, 0, 0, 0, 0, 0, 0, 0, 77]);
    }
}

/// What writing, cutting and listing at once are lent.
#[derive(Clone, Debug, PartialEq)]
struct Buffers {
    bytes: Vec<u8>,
    out: Vec<u16>,
    counts: Vec<u32>,
    losses: Vec<u64>,
    work: Vec<u32>,
}

/// What they answer and leave, by the second program.
fn at_once(plate: &Plate, limit: u32, lent: &mut Buffers) -> lent::JointHead {
    let (w, h, m, c) = plate.numbers();
    let outputs = reference::JointOutputs {
        record: &mut lent.bytes,
        out: &mut lent.out,
        counts: &mut lent.counts,
        losses: &mut lent.losses,
    };
    let work = &mut lent.work;
    let head = reference::write_cut_list(&plate.greys, w, h, m, c, limit, outputs, work);
    lent::JointHead {
        refusal: head.refusal,
        length: head.length,
        nodes: head.nodes,
        darkest: u32::from(head.darkest),
        held: head.held,
    }
}

#[test]
fn writing_cutting_and_listing_at_once() {
    let (mut chance, mut seen) = (Chance::new(13), Seen::default());
    for case in 0..CASES {
        let plate = chance.job(EXTENT);
        let limit = chance.limit(plate.pixels());
        let places = plate.pixels().saturating_sub(1);
        let mut given = Buffers {
            bytes: chance.buffer(record_of(&plate).len()),
            out: chance.buffer(plate.pixels()),
            counts: chance.buffer(places),
            losses: chance.buffer(places),
            work: chance.buffer(8 * plate.pixels()),
        };
        let mut wanted = given.clone();
        let outputs = lent::JointOutputs {
            bytes: &mut given.bytes,
            out: &mut given.out,
            counts: &mut given.counts,
            losses: &mut given.losses,
        };
        let answer = lent::write_cut_list(plate.image(), limit, outputs, &mut given.work);
        assert_eq!(
            answer,
            at_once(&plate, limit, &mut wanted),
            "case {case}: {plate:?}"
        );
        assert_eq!(given, wanted, "case {case}: {plate:?}");
        seen.note(answer.refusal);
    }
    seen.assert_all(&[0, 1, 2, 3, 4, 5, 6, 28, 29]);
}

/// Bytes by chance that look like a record's beginning.
#[test]
fn invented_records() {
    let (mut chance, mut seen) = (Chance::new(12), Seen::default());
    for _ in 0..8 * CASES {
        let mut record = match chance.below(4) {
            0 | 1 => vec![],
            2 => vec![0, 2, chance.pick(&[0, 1, 2, 3, 100, 127])],
            _ => [&[0, 2][..], &field(chance.pick(&[255, 256, 65_535]))].concat(),
        };
        record.extend([
            chance.pick(&[1, 2]),
            chance.pick(&[1, 2]),
            chance.pick(&Connectivity::ALL).number() as u8,
        ]);
        for _ in 0..chance.below(16) {
            record.push(chance.pick(&[0, 0, 1, 1, 1, 2, 2, 3, 4, 127, 128, 255]));
        }
        seen.note(compare_reading(&mut chance, &record, 4));
    }
    seen.assert_all(&[0, 5, 6, 20, 21, 22, 23, 24]);
}
