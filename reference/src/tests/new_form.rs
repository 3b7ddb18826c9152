//! The new form of a record: its front, its ranges, 24 in the form received; and
//! converting from form to form.

use super::helpers::*;
use crate::cases::replaced;
use crate::varint::spelled;
use crate::*;

/// The refusals of reading, cutting, listing, and converting to the old and the new
/// form, with so many places in each output and in the work space.
fn refusals(record: &[u8], places: usize, entries: usize) -> [u32; 5] {
    let (mut out, mut bytes, mut work) = (vec![GREY; places], vec![BYTE; places], work_of(entries));
    let (mut counts, mut losses) = (vec![WORD; places], vec![LONG; places]);
    let refusals = [
        read_record(record, &mut out, &mut work).refusal,
        cut_record(record, 1, &mut out, &mut work).refusal,
        size_list(record, &mut counts, &mut losses, &mut work).refusal,
        to_old_form(record, &mut bytes, &mut work).refusal,
        to_new_form(record, &mut bytes, &mut work).refusal,
    ];
    if !refusals.contains(&0) {
        assert!(all_are(&out, GREY) && all_are(&bytes, BYTE));
        assert!(all_are(&counts, WORD) && all_are(&losses, LONG));
    }
    refusals
}

/// The same with ample buffers for twelve pixels.
fn ample(record: &[u8]) -> [u32; 5] {
    refusals(record, 40, 96)
}

/// The bytes that spell these fields.
fn of_fields(fields: &[u32]) -> Vec<u8> {
    fields.iter().flat_map(|&field| spelled(field)).collect()
}

/// Converts with ample buffers for n pixels and checks them.
fn converted(
    record: &[u8],
    n: usize,
    to_form: fn(&[u8], &mut [u8], &mut [u32]) -> RecordLength,
) -> Vec<u8> {
    let (mut out, mut work) = (vec![BYTE; record.len() + 9], work_of(8 * n + EXCESS));
    let answer = to_form(record, &mut out, &mut work);
    assert_eq!(answer.refusal, 0);
    assert!(all_are(&out[answer.length..], BYTE) && work_zeroed(&work, n));
    out.truncate(answer.length);
    out
}

#[test]
fn fronts_by_hand() {
    let cases: [(&[u8], u32); 13] = [
        (&[], 20),
        (&[0], 20),
        (&[0, 128], 20),
        (&[0, 3], 22),
        (&[0, 3, 128, 0], 22),
        (&[0, 130, 0], 21),
        (&[128, 0], 21),
        (&[128, 0, 2, 255, 1], 21),
        (&[0, 2], 20),
        (&[0, 2, 0], 22),
        (&[0, 2, 128, 128, 4], 22),
        (&[0, 2, 255, 129, 0], 21),
        (&[0, 2, 255, 255, 3], 20),
    ];
    for (front, number) in cases {
        assert_eq!(ample(front), [number; 5], "{front:?}");
        if number != 20 {
            assert_eq!(ample(&[front, &SMALL_RECORD].concat()), [number; 5]);
        }
    }
}

#[test]
fn the_second_field_and_the_greatest_grey() {
    let with_front = |front: &[u32]| ample(&[&of_fields(front)[..], &SMALL_RECORD].concat());
    for second in [0, 1, 3, 4, 130, 258, u32::MAX] {
        assert_eq!(with_front(&[0, second, 255]), [22; 5]);
    }
    // the small plate's lightest grey is 90
    for m in [0, 1, 9, 10, 30, 89, 65_536, u32::MAX] {
        assert_eq!(with_front(&[0, 2, m]), [22; 5]);
    }
    for m in [90, 91, 254, 256, 65_535] {
        assert_eq!(with_front(&[0, 2, m]), [0, 0, 0, 30, 0]);
        let record = [&of_fields(&[0, 2, m])[..], &SMALL_RECORD].concat();
        assert_eq!(read_back(&record, 12), (head(4, 3, m, 4), SMALL.to_vec()));
        assert_eq!(written(&SMALL, 4, 3, m, 4), record);
    }
    assert_eq!(with_front(&[0, 2, 255]), [0; 5]);
    assert_eq!(with_front(&[0, 2, 255, 0, 2, 255]), [22; 5]);
}

#[test]
fn every_shorter_record_gives_20_and_a_longer_one_23() {
    for old in SMALL_RECORDS {
        let record = in_new_form(&old);
        for length in 0..record.len() {
            assert_eq!(ample(&record[..length]), [20; 5]);
            let little = if length < 8 { 20 } else { 6 };
            assert_eq!(refusals(&record[..length], 0, 95), [little; 5]);
        }
        assert_eq!(refusals(&[&record[..], &[0]].concat(), 0, 96), [23; 5]);
    }
}

#[test]
fn root_level_and_rise_go_up_to_the_greatest_grey() {
    for m in [1, 2, 127, 128, 254, 255, 256, 16_384, 65_535] {
        let refusal = |level, rise| {
            let fields = [0, 2, m, 2, 1, 4, 2, level, 2, 1, rise, 1, 0, 1];
            ample(&of_fields(&fields))[0]
        };
        assert_eq!((refusal(0, m), refusal(m - 1, 1)), (0, 0));
        assert_eq!((refusal(0, m + 1), refusal(m - 1, 2)), (22, 22));
        assert_eq!((refusal(m, 1), refusal(m + 1, 1)), (22, 22));
        assert_eq!((refusal(0, 0), refusal(0, u32::MAX)), (22, 22));
    }
}

#[test]
fn fields_of_three_bytes() {
    let record = written(&[20_000, 65_535], 2, 1, 65_535, 4);
    let front = [0, 2, 255, 255, 3];
    let nodes = [2, 1, 4, 2, 160, 156, 1, 2, 1, 223, 227, 2, 1, 0, 1];
    assert_eq!(record, [&front[..], &nodes].concat());
    let (answer, plate) = read_back(&record, 2);
    assert_eq!(answer, head(2, 1, 65_535, 4));
    assert_eq!(plate, [20_000, 65_535]);
}

#[test]
fn bytes_that_differ_give_24_in_either_form() {
    for old in SMALL_RECORDS {
        for (at, value) in [(5, 11), (8, 4), (11, 2), (14, 2), (9, 2)] {
            let differing = replaced(&old, at, &[value]);
            for record in [differing.clone(), in_new_form(&differing)] {
                assert_eq!(refusals(&record, 0, 96), [24; 5]);
            }
            // 24 stands ahead of 30
            let other = [&of_fields(&[0, 2, 256])[..], &differing].concat();
            assert_eq!(refusals(&other, 0, 96), [24; 5]);
        }
    }
}

#[test]
fn converting_refuses_30_then_5() {
    for old in SMALL_RECORDS {
        let new = in_new_form(&old);
        let conversions = |record: &[u8], places| {
            let [.., to_old, to_new] = refusals(record, places, 96);
            (to_old, to_new)
        };
        for record in [&old[..], &new] {
            assert_eq!(conversions(record, 26), (5, 5));
            assert_eq!(conversions(record, 27), (0, 5));
            assert_eq!(conversions(record, 30), (0, 5));
            assert_eq!(conversions(record, 31), (0, 0));
        }
        let other = [&of_fields(&[0, 2, 254])[..], &old].concat();
        assert_eq!(conversions(&other, 0), (30, 5));
        assert_eq!(conversions(&other, 31), (30, 0));
        assert_eq!(refusals(&other, 0, 95), [6; 5]);
    }
}

#[test]
fn there_and_back_restores_the_bytes() {
    let mut random = Lcg(61);
    for round in 0..200 {
        let (plate, width, height) = random.plate_up_to(6, 255);
        let n = plate.len();
        let new = written(&plate, width, height, 255, in_turn(round));
        let old = converted(&new, n, to_old_form);
        assert_eq!(in_new_form(&old), new);
        assert_eq!(converted(&old, n, to_new_form), new);
        assert_eq!(converted(&old, n, to_old_form), old);
        assert_eq!(converted(&new, n, to_new_form), new);
        assert_eq!(read_back(&old, n), read_back(&new, n));
    }
}

#[test]
fn another_greatest_grey_has_no_old_form() {
    let mut random = Lcg(62);
    for round in 0..300 {
        let (plate, width, height, greatest) = random.plate(6);
        let record = written(&plate, width, height, greatest, in_turn(round));
        let (mut out, mut work) = (vec![BYTE; record.len()], work_of(8 * plate.len()));
        let answer = to_old_form(&record, &mut out, &mut work);
        let number = if greatest == 255 { 0 } else { 30 };
        assert_eq!(answer.refusal, number);
        assert!(work_zeroed(&work, plate.len()));
        assert_eq!(all_are(&out, BYTE), number != 0);
        assert_eq!(converted(&record, plate.len(), to_new_form), record);
    }
}
