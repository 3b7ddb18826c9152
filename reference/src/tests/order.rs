//! The first condition in the specification's order decides: inputs that meet every
//! condition of an operation at once, mended one condition after another.

use super::helpers::*;
use crate::*;

/// A plate that is too long for the small plate's width and height, and has a pixel
/// above every greatest grey in use.
const LONG_PLATE: [u16; 13] = [65_535; 13];

/// Cleaning on a side, the later conditions mended one after another: the
/// number is `refusal` of the one that the later conditions give.
fn check_cleaning(side: u32, (fit, unfit): (u32, u32), refusal: fn(u32) -> u32) {
    let cases = [
        (&LONG_PLATE[..], [0, 3, 0, unfit], 0, 0, 0, 1),
        (&LONG_PLATE, [0, 3, 0, fit], 0, 0, 0, 2),
        (&LONG_PLATE, [4, 3, 0, fit], 0, 0, 0, 29),
        (&LONG_PLATE, [4, 3, 65_536, fit], 0, 0, 0, 29),
        (&LONG_PLATE, [4, 3, 89, fit], 0, 0, 0, 3),
        (&SMALL, [4, 3, 89, fit], 0, 0, 0, 28),
        (&SMALL, [4, 3, 90, fit], 0, 0, 0, 4),
        (&SMALL, [4, 3, 90, fit], 12, 0, 0, 5),
        (&SMALL, [4, 3, 90, fit], 12, 12, 0, 6),
        (&SMALL, [4, 3, 90, fit], 12, 12, 96, 0),
    ];
    for (plate, [w, h, m, c], limit, places, entries, number) in cases {
        let (mut out, mut work) = (vec![GREY; places], work_of(entries));
        let cleaning = clean(side, plate, w, h, m, c, limit, &mut out, &mut work);
        assert_eq!(cleaning.refusal, refusal(number));
        let untouched = work_untouched(&work) && all_are(&out, GREY);
        assert_eq!(untouched, cleaning.refusal != 0);
    }
}

#[test]
fn cleaning_in_order() {
    for side in SIDES {
        for pair in FIT_AND_UNFIT {
            check_cleaning(side, pair, |number| number);
        }
    }
}

#[test]
fn the_side_comes_before_every_other_condition() {
    for side in [0, 3, u32::MAX] {
        for pair in FIT_AND_UNFIT {
            check_cleaning(side, pair, |_| 26);
        }
    }
}

/// The conditions of marking, mended one after another.
fn check_marking((fit, unfit): (u32, u32)) {
    let cases = [
        (&LONG_PLATE[..], [0, 3, 0, unfit], 0, 0, 1),
        (&LONG_PLATE, [0, 3, 0, fit], 0, 0, 2),
        (&LONG_PLATE, [4, 3, 0, fit], 0, 0, 29),
        (&LONG_PLATE, [4, 3, 89, fit], 0, 0, 3),
        (&SMALL, [4, 3, 89, fit], 0, 0, 28),
        (&SMALL, [4, 3, 90, fit], 0, 0, 5),
        (&SMALL, [4, 3, 90, fit], 12, 0, 6),
        (&SMALL, [4, 3, 90, fit], 12, 96, 0),
    ];
    for (plate, [w, h, m, c], places, entries, number) in cases {
        let (mut out, mut work) = (vec![GREY; places], work_of(entries));
        let marking = regional_maxima(plate, w, h, m, c, &mut out, &mut work);
        assert_eq!(marking.refusal, number);
    }
}

#[test]
fn marking_in_order() {
    for pair in FIT_AND_UNFIT {
        check_marking(pair);
    }
}

/// The conditions of the node list and of writing, mended one after another.
fn check_listing_and_writing((fit, unfit): (u32, u32)) {
    let cases = [
        (&LONG_PLATE[..], [0, 3, 0, unfit], 0, 0, 1),
        (&LONG_PLATE, [0, 3, 0, fit], 0, 0, 2),
        (&LONG_PLATE, [4, 3, 0, fit], 0, 0, 29),
        (&LONG_PLATE, [4, 3, 89, fit], 0, 0, 3),
        (&SMALL, [4, 3, 89, fit], 0, 0, 28),
        (&SMALL, [4, 3, 90, fit], 0, 0, 6),
        (&SMALL, [4, 3, 90, fit], 0, 96, 5),
        (&SMALL, [4, 3, 90, fit], 30, 96, 0),
    ];
    for (plate, [w, h, m, c], places, entries, number) in cases {
        let (mut out, mut work) = (vec![BYTE; places], work_of(entries));
        let writing = write_record(plate, w, h, m, c, &mut out, &mut work);
        let mut columns = Columns::of([places; 4]);
        let listing = node_list(plate, w, h, m, c, columns.lent(), &mut work);
        let mut list = vec![NodeEntry::default(); places];
        let entries = node_entries(plate, w, h, m, c, &mut list, &mut work);
        let refusals = [writing.refusal, listing.refusal, entries.refusal];
        assert_eq!(refusals, [number; 3]);
    }
}

#[test]
fn listing_and_writing_in_order() {
    for pair in FIT_AND_UNFIT {
        check_listing_and_writing(pair);
    }
}

/// The joint operation over buffers of these lengths (cut, counts, losses, work
/// space, record) gives this number and leaves the buffers as it says.
fn check_joint(plate: &[u16], shape: [u32; 4], limit: u32, lengths: [usize; 5], number: u32) {
    let [cut, counts, losses, work, record] = lengths;
    let mut lent = Joint::of([record, cut, counts, losses, work]);
    let head = lent.run(plate, shape, limit);
    assert_eq!(head.refusal, number);
    let untouched = number != 0 && work < 96;
    assert!(if untouched {
        work_untouched(&lent.work)
    } else {
        work_zeroed(&lent.work, 12)
    });
    if number != 0 {
        let refused = JointHead {
            refusal: number,
            ..JointHead::default()
        };
        assert_eq!(head, refused);
        lent.work = work_of(work);
        assert_eq!(lent, Joint::of([record, cut, counts, losses, work]));
    }
}

#[test]
fn the_joint_operation_in_order() {
    for (fit, unfit) in FIT_AND_UNFIT {
        check_joint(&LONG_PLATE, [0, 3, 0, unfit], 0, [0; 5], 1);
        check_joint(&LONG_PLATE, [0, 3, 0, fit], 0, [0; 5], 2);
        check_joint(&LONG_PLATE, [4, 3, 65_536, fit], 0, [0; 5], 29);
        check_joint(&LONG_PLATE, [4, 3, 89, fit], 0, [0; 5], 3);
        check_joint(&SMALL, [4, 3, 89, fit], 0, [0; 5], 28);
        let small = |limit, lengths, number| {
            check_joint(&SMALL, [4, 3, 90, fit], limit, lengths, number);
        };
        small(0, [0; 5], 4);
        small(13, [0; 5], 4);
        small(12, [11, 11, 11, 0, 0], 5);
        small(12, [12, 10, 11, 0, 0], 5);
        small(12, [12, 11, 10, 0, 0], 5);
        small(12, [12, 11, 11, 95, 0], 6);
        small(12, [12, 11, 11, 96, 29], 5);
        small(12, [12, 11, 11, 96, 30], 0);
    }
}

#[test]
fn headers_in_order() {
    for (file, at, number) in [
        (&b"p5 x"[..], 0, 10),
        (b"P5 x", 0, 11),
        (b"P5 1 1 255", 0, 11),
        (b"P5 1 1 255 ", 1, 10),
        (b"P5 1 1 255 ", 11, 10),
        (b"P5 1 1 255 ", 12, 10),
        (b"P5 1 1 255 ", usize::MAX, 10),
    ] {
        let refused = Header {
            refusal: number,
            ..Header::default()
        };
        assert_eq!(header_at(file, at), refused);
    }
}

#[test]
fn plate_files_in_order() {
    let cases: [(&[u8], usize, u32); 13] = [
        (b"p5 x 1 0", 0, 10),
        (b"P5 0 x 0", 0, 11),
        (b"P5 0 1 0", 0, 11),
        (b"P5 0 1 0\n", 0, 2),
        (b"P5 2 1 0\n", 0, 12),
        (b"P5 2 1 1\na", 0, 14),
        (b"P5 2 1 1\nabc", 0, 15),
        (b"P5 2 1 1\nab", 0, 28),
        (b"P5 2 1 256\nabc", 0, 14),
        (b"P5 2 1 256\nabcde", 0, 15),
        (b"P5 2 1 256\nabcd", 0, 28),
        (b"P5 2 1 255\nab", 0, 5),
        (b"P5 2 1 255\nab", 2, 0),
    ];
    for (file, places, number) in cases {
        let mut out = vec![GREY; places];
        assert_eq!(read_pgm(file, &mut out).refusal, number);
    }
}

/// The refusals of reading, of cutting at the limit and of the size list.
fn record_refusals(record: &[u8], limit: u32, places: usize, entries: usize) -> [u32; 3] {
    let (mut out, mut work) = (vec![GREY; places], work_of(entries));
    let (mut counts, mut losses) = (vec![WORD; places], vec![LONG; places]);
    [
        read_record(record, &mut out, &mut work).refusal,
        cut_record(record, limit, &mut out, &mut work).refusal,
        size_list(record, &mut counts, &mut losses, &mut work).refusal,
    ]
}

#[test]
fn at_each_field_20_then_21_then_22() {
    for before in beginnings() {
        let work = 96;
        let endless = [before, &[128; 9]].concat();
        assert_eq!(record_refusals(&endless, 0, 0, work), [20; 3]);
        let too_long = [before, &[255, 255, 255, 128, 0]].concat();
        assert_eq!(record_refusals(&too_long, 0, 0, work), [21; 3]);
        let too_great = [before, &[255, 255, 255, 127]].concat();
        assert_eq!(record_refusals(&too_great, 0, 0, work), [22; 3]);
    }
}

#[test]
fn an_earlier_field_decides() {
    for before in beginnings().filter(|before| before.len() < 26) {
        let outside_then_short = [before, &[255, 255, 127]].concat();
        assert_eq!(record_refusals(&outside_then_short, 0, 0, 96), [22; 3]);
        let outside_then_long = [before, &[255, 255, 127, 128, 0]].concat();
        assert_eq!(record_refusals(&outside_then_long, 0, 0, 96), [22; 3]);
        let long_then_outside = [before, &[128, 0, 255, 255, 127]].concat();
        assert_eq!(record_refusals(&long_then_outside, 0, 0, 96), [21; 3]);
    }
}

#[test]
fn short_work_space_stands_behind_the_node_count() {
    for before in beginnings() {
        let bad_here = [before, &[255, 255, 127]].concat();
        let (outside, ended) = if before.len() < 4 { (22, 20) } else { (6, 6) };
        assert_eq!(record_refusals(&bad_here, 0, 0, 95), [outside; 3]);
        assert_eq!(record_refusals(before, 0, 0, 95), [ended; 3]);
    }
}

#[test]
fn work_space_behind_and_ahead_of_6() {
    for before in beginnings() {
        for tail in [&[][..], &[128, 0], &[255, 255, 127]] {
            let record = [before, tail].concat();
            let (mut out, mut work) = ([GREY; 12], work_of(99));
            let answer = read_record(&record, &mut out, &mut work);
            assert!(matches!(answer.refusal, 20..=22));
            assert_eq!(out, [GREY; 12]);
            assert!(if before.len() < 4 {
                work_untouched(&work)
            } else {
                work_zeroed(&work, 12)
            });
        }
    }
}

#[test]
fn behind_the_fields_23_then_24_then_4_then_5() {
    for record in SMALL_RECORDS {
        let mut differing = record.to_vec();
        differing[8] += 1;
        let left_over = [&differing[..], &[128]].concat();
        assert_eq!(record_refusals(&left_over, 0, 0, 95), [6; 3]);
        assert_eq!(record_refusals(&left_over, 0, 0, 96), [23; 3]);
        assert_eq!(record_refusals(&differing, 0, 0, 96), [24; 3]);
        assert_eq!(record_refusals(&record, 0, 0, 96), [5, 4, 5]);
        assert_eq!(record_refusals(&record, 1, 0, 96), [5; 3]);
        assert_eq!(record_refusals(&record, 1, 11, 96), [5, 5, 0]);
        assert_eq!(record_refusals(&record, 1, 12, 96), [0; 3]);
    }
}
