//! Each refusal number of each operation, and what it leaves in the buffers.

use super::helpers::*;
use crate::cases::{replaced, UNFIT};
use crate::varint::{spelled, take_field};
use crate::*;

/// Heads that the grid refuses though their connectivity is one: width, height,
/// connectivity, plate length, and the number.
const BAD_HEADS: [(u32, u32, u32, usize, u32); 10] = [
    (0, 3, 4, 0, 2),
    (0, 3, 6, 0, 2),
    (4, 0, 8, 0, 2),
    (32_769, 1, 4, 32_769, 2),
    (1, 32_769, 4, 32_769, 2),
    (32_768, 513, 4, 12, 2),
    (u32::MAX, u32::MAX, 8, 12, 2),
    (4, 3, 4, 11, 3),
    (4, 3, 6, 13, 3),
    (4, 3, 8, 13, 3),
];

#[test]
fn the_grid_refuses_for_every_operation_on_a_plate() {
    let unfit = UNFIT.map(|number| (4, 3, number, 12, 1));
    for (w, h, c, length, number) in BAD_HEADS.into_iter().chain(unfit) {
        let plate = vec![10; length];
        let (mut out, mut record, mut work) = (vec![GREY; 200], vec![BYTE; 200], work_of(400));
        let mut columns = Columns::of([20; 4]);
        let light = clean(LIGHT, &plate, w, h, 255, c, 1, &mut out, &mut work);
        let dark = clean(DARK, &plate, w, h, 255, c, 1, &mut out, &mut work);
        let marking = regional_maxima(&plate, w, h, 255, c, &mut out, &mut work);
        let listing = node_list(&plate, w, h, 255, c, columns.lent(), &mut work);
        let writing = write_record(&plate, w, h, 255, c, &mut record, &mut work);
        assert_eq!((light.refusal, dark.refusal), (number, number));
        assert_eq!(marking.refusal, number);
        assert_eq!((listing.refusal, listing.count), (number, 0));
        assert_eq!((writing.refusal, writing.length), (number, 0));
        assert_eq!(columns, Columns::of([20; 4]));
        assert!(all_are(&out, GREY) && all_are(&record, BYTE) && work_untouched(&work));
    }
}

#[test]
fn the_greatest_grids_are_within() {
    assert!(grid::is_size(32_768, 512) && grid::is_size(512, 32_768));
    assert!(grid::is_size(4_096, 4_096) && grid::is_size(32_768, 1));
    assert!(!grid::is_size(4_096, 4_097) && !grid::is_size(65_536, 256));
}

/// Cleans the small plate with buffers of these lengths and checks that it
/// is refused by this number, the buffers untouched.
fn cleaning_refuses(side: u32, limit: u32, places: usize, entries: usize, number: u32) {
    for connectivity in CONNECTIVITIES {
        let (mut out, mut work) = (vec![GREY; places], work_of(entries));
        let cleaning = clean(
            side,
            &SMALL,
            4,
            3,
            255,
            connectivity,
            limit,
            &mut out,
            &mut work,
        );
        assert_eq!(cleaning.refusal, number);
        assert_eq!(out, vec![GREY; places]);
        assert!(work_untouched(&work));
    }
}

#[test]
fn cleaning_refuses_4_5_and_6() {
    for side in SIDES {
        cleaning_refuses(side, 0, 12, 96, 4);
        cleaning_refuses(side, 13, 12, 96, 4);
        cleaning_refuses(side, 1, 11, 96, 5);
        cleaning_refuses(side, 12, 12, 95, 6);
    }
}

#[test]
fn cleaning_refuses_other_sides_by_26() {
    for side in [0, 3, 4, 257, 65_538, u32::MAX] {
        cleaning_refuses(side, 2, 12, 96, 26);
        cleaning_refuses(side, 0, 11, 95, 26);
    }
}

#[test]
fn marking_refuses_5_and_6() {
    for connectivity in CONNECTIVITIES {
        for (places, entries, number) in [(11, 96, 5), (12, 95, 6)] {
            let (mut out, mut work) = (vec![GREY; places], work_of(entries));
            let marking = regional_maxima(&SMALL, 4, 3, 255, connectivity, &mut out, &mut work);
            assert_eq!(marking.refusal, number);
            assert_eq!(out, vec![GREY; places]);
            assert!(work_untouched(&work));
        }
    }
}

#[test]
fn the_node_list_refuses_6_then_5() {
    for connectivity in CONNECTIVITIES {
        let list = |lengths: [usize; 4], entries: usize| {
            let mut columns = Columns::of(lengths);
            let mut work = work_of(entries);
            let answer = node_list(&SMALL, 4, 3, 255, connectivity, columns.lent(), &mut work);
            let untouched = columns == Columns::of(lengths);
            (answer.refusal, answer.count, untouched, work)
        };
        assert_eq!(list([0; 4], 95), (6, 0, true, work_of(95)));
        for short in 0..4 {
            let mut lengths = [4; 4];
            lengths[short] = 3;
            let (refusal, count, untouched, work) = list(lengths, 100);
            assert_eq!((refusal, count, untouched), (5, 0, true));
            assert!(work_zeroed(&work, 12));
        }
        let (refusal, count, untouched, _) = list([4; 4], 96);
        assert_eq!((refusal, count, untouched), (0, 4, false));
    }
}

#[test]
fn writing_refuses_6_then_5() {
    for (connectivity, record) in [(4, SMALL_RECORD), (6, SMALL_RECORD_6)] {
        let write = |out: &mut [u8], work: &mut [u32]| {
            let answer = write_record(&SMALL, 4, 3, 255, connectivity, out, work);
            (answer.refusal, answer.length)
        };
        let (mut out, mut work) = (vec![BYTE; 30], work_of(95));
        assert_eq!(write(&mut out, &mut work), (6, 0));
        assert!(work_untouched(&work));
        let mut work = work_of(99);
        assert_eq!(write(&mut out, &mut work), (5, 0));
        assert_eq!(out, [BYTE; 30]);
        assert!(work_zeroed(&work, 12));
        let mut out = [BYTE; 31];
        assert_eq!(write(&mut out, &mut work), (0, 31));
        assert_eq!(out[..], in_new_form(&record));
    }
}

/// The number with which a record of at most 12 pixels is refused by reading,
/// cutting and the size list alike, their buffers being ample.
fn record_refusal(record: &[u8]) -> u32 {
    let (mut out, mut work) = (vec![GREY; 12], work_of(100));
    let (mut counts, mut losses) = (vec![WORD; 11], vec![LONG; 11]);
    let reading = read_record(record, &mut out, &mut work);
    let left = work.clone();
    let cutting = cut_record(record, 1, &mut out, &mut work);
    let listing = size_list(record, &mut counts, &mut losses, &mut work);
    let refusal = reading.refusal;
    let head = RecordHead {
        refusal,
        ..RecordHead::default()
    };
    let sizes = SizeHead {
        refusal,
        ..SizeHead::default()
    };
    assert_ne!(refusal, 0);
    assert_eq!((reading, cutting, listing), (head, head, sizes));
    assert_eq!((out, left), (vec![GREY; 12], work.clone()));
    assert_eq!((counts, losses), (vec![WORD; 11], vec![LONG; 11]));
    assert!(work_untouched(&work) || work_zeroed(&work, 12));
    if matches!(refusal, 23 | 24) {
        assert!(work_zeroed(&work, 12));
    }
    refusal
}

#[test]
fn every_shorter_record_gives_20() {
    for before in beginnings() {
        assert_eq!(record_refusal(before), 20);
        let continued = [before, &[128]].concat();
        assert_eq!(record_refusal(&continued), 20);
    }
}

#[test]
fn a_field_without_end_gives_20_however_long() {
    for before in beginnings() {
        for (byte, length) in [(128, 1), (128, 10), (255, 10), (128, 300), (255, 300)] {
            let run = vec![byte; length];
            let record = [before, &run].concat();
            assert_eq!(record_refusal(&record), 20);
        }
    }
}

#[test]
fn a_form_not_shortest_or_too_large_gives_21_at_each_field() {
    for record in SMALL_RECORDS {
        for (at, value) in record.into_iter().enumerate() {
            let refusal = |bytes: &[u8]| record_refusal(&replaced(&record, at, bytes));
            let first = value + 128;
            assert_eq!(refusal(&[first, 0]), 21);
            assert_eq!(refusal(&[&[first], &[128; 40][..], &[0]].concat()), 21);
            let too_large = [128, 128, 128, 128, 16];
            assert_eq!(refusal(&too_large), 21);
            let largest = [255, 255, 255, 255, 15];
            assert_eq!(refusal(&largest), 22);
            let far_too_large = [&[128; 60][..], &[1]].concat();
            assert_eq!(refusal(&far_too_large), 21);
        }
    }
}

#[test]
fn values_outside_their_range_give_22() {
    let cases: [(usize, u32); 24] = [
        (0, 32_769),
        (0, 65_536),
        (1, 0),
        (1, 32_769),
        (3, 0),
        (3, 13),
        (4, 256),
        (5, 0),
        (5, 13),
        (6, 0),
        (6, 2),
        (7, 0),
        (7, 246),
        (8, 0),
        (8, 13),
        (9, 0),
        (9, 3),
        (10, 0),
        (10, 226),
        (12, 4),
        (13, 246),
        (14, 13),
        (15, 4),
        (26, 4),
    ];
    for (at, value) in cases.into_iter().chain(UNFIT.map(|number| (2, number))) {
        for record in SMALL_RECORDS {
            assert_eq!(record_refusal(&replaced(&record, at, &spelled(value))), 22);
        }
    }
}

#[test]
fn the_end_values_of_each_range_are_taken() {
    let cases: [(usize, u32); 24] = [
        (0, 1),
        (0, 32_768),
        (1, 1),
        (2, 4),
        (2, 6),
        (2, 8),
        (3, 1),
        (3, 12),
        (4, 0),
        (4, 255),
        (5, 1),
        (5, 12),
        (6, 1),
        (7, 1),
        (7, 245),
        (8, 1),
        (8, 12),
        (9, 2),
        (10, 1),
        (10, 225),
        (12, 3),
        (13, 245),
        (15, 0),
        (15, 3),
    ];
    for (at, value) in cases {
        // With the field taken, the record ends too early.
        let ended = [&SMALL_RECORD[..at], &spelled(value)].concat();
        assert_eq!(record_refusal(&ended), 20);
    }
}

#[test]
fn a_product_beyond_the_grid_gives_22_at_the_height() {
    let width = spelled(32_768);
    for tail in [&[][..], &[0], &[4, 0], &[128]] {
        let beyond = [&width, &spelled(513)[..], tail].concat();
        assert_eq!(record_refusal(&beyond), 22);
    }
    let within = [&width, &spelled(512)[..]].concat();
    assert_eq!(record_refusal(&within), 20);
    let full = [&within[..], &[4, 1]].concat();
    assert_eq!(record_refusal(&full), 6);
}

#[test]
fn no_rise_is_valid_above_a_parent_at_255() {
    let upto_rise = [2, 1, 4, 2, 255, 1, 2, 1];
    for rise in [0, 1, 2, 127] {
        let record = [&upto_rise[..], &[rise, 1, 0, 1]].concat();
        assert_eq!(small_refusal(&record, 2), (22, true));
    }
    let at_254 = [2, 1, 4, 2, 254, 1, 2, 1, 1, 1, 0, 1];
    assert_eq!(small_refusal(&at_254, 2), (0, true));
}

/// The refusal of reading, with buffers for just so many pixels; and whether
/// the work space is zeroed.
fn small_refusal(record: &[u8], pixels: usize) -> (u32, bool) {
    let (mut out, mut work) = (vec![GREY; pixels], work_of(8 * pixels + EXCESS));
    let answer = read_record(record, &mut out, &mut work);
    (answer.refusal, work_zeroed(&work, pixels))
}

#[test]
fn bytes_left_over_give_23() {
    for record in SMALL_RECORDS {
        for tail in [&[0][..], &[128], &[4, 3], &[255; 30]] {
            assert_eq!(record_refusal(&[&record, tail].concat()), 23);
        }
        let wrong_area_too = [&replaced(&record, 8, &[4])[..], &[0]].concat();
        assert_eq!(record_refusal(&wrong_area_too), 23);
    }
}

#[test]
fn bytes_that_differ_from_the_record_give_24() {
    for record in SMALL_RECORDS {
        for (at, value) in [(5, 11), (8, 4), (11, 2), (14, 2), (9, 2)] {
            assert_eq!(record_refusal(&replaced(&record, at, &[value])), 24);
        }
        // A greater rise of node 1 spells another plate, and is its record.
        let risen = replaced(&record, 7, &[21]);
        assert_eq!(small_refusal(&risen, 12), (0, true));
    }
}

#[test]
fn bytes_for_another_connectivity_give_24_or_are_its_record() {
    for other in [6, 8] {
        assert_eq!(record_refusal(&replaced(&SMALL_RECORD, 2, &[other])), 24);
    }
    assert_eq!(record_refusal(&replaced(&SMALL_RECORD_6, 2, &[4])), 24);
    let eight = replaced(&SMALL_RECORD_6, 2, &[8]);
    assert_eq!(written(&SMALL, 4, 3, 255, 8), in_new_form(&eight));
    assert_eq!(read_back(&eight, 12), (head(4, 3, 255, 8), SMALL.to_vec()));
}

#[test]
fn nodes_without_pixels_or_out_of_order_give_24() {
    let straight = [2, 1, 4, 2, 7, 2, 1, 1, 1, 0, 1];
    let only_root = [2, 1, 4, 2, 7, 2, 1, 1, 1, 0, 0];
    let only_child = [2, 1, 4, 2, 7, 2, 1, 1, 1, 1, 1];
    assert_eq!(small_refusal(&straight, 2), (0, true));
    assert_eq!(small_refusal(&only_root, 2), (24, true));
    assert_eq!(small_refusal(&only_child, 2), (24, true));
    let straight = [3, 1, 4, 3, 7, 3, 1, 1, 1, 2, 1, 1, 1, 0, 2];
    let swapped = [3, 1, 4, 3, 7, 3, 1, 1, 1, 2, 1, 1, 2, 0, 1];
    assert_eq!(small_refusal(&straight, 3), (0, true));
    assert_eq!(small_refusal(&swapped, 3), (24, true));
}

#[test]
fn reading_cutting_and_the_size_list_refuse_5() {
    for record in SMALL_RECORDS {
        let (mut out, mut work) = (vec![GREY; 11], work_of(99));
        let reading = read_record(&record, &mut out, &mut work);
        assert_eq!((reading.refusal, reading.width), (5, 0));
        assert!(work_zeroed(&work, 12));
        let mut work = work_of(99);
        let cutting = cut_record(&record, 12, &mut out, &mut work);
        assert_eq!((cutting.refusal, cutting.width), (5, 0));
        assert!(work_zeroed(&work, 12));
        assert_eq!(out, [GREY; 11]);
        for (c, l) in [(10, 11), (11, 10), (0, 0)] {
            let (mut counts, mut losses) = (vec![WORD; c], vec![LONG; l]);
            let mut work = work_of(99);
            let listing = size_list(&record, &mut counts, &mut losses, &mut work);
            assert_eq!((listing.refusal, listing.nodes), (5, 0));
            assert_eq!((counts, losses), (vec![WORD; c], vec![LONG; l]));
            assert!(work_zeroed(&work, 12));
        }
    }
}

#[test]
fn short_work_space_gives_6_and_stays_untouched() {
    for record in SMALL_RECORDS {
        for entries in [0, 1, 95] {
            let (mut out, mut work) = ([GREY; 12], work_of(entries));
            let (mut counts, mut losses) = ([WORD; 11], [LONG; 11]);
            let reading = read_record(&record, &mut out, &mut work);
            let cutting = cut_record(&record, 0, &mut out, &mut work);
            let listing = size_list(&record, &mut counts, &mut losses, &mut work);
            assert_eq!(reading.refusal, 6);
            assert_eq!(cutting.refusal, 6);
            assert_eq!(listing.refusal, 6);
            assert_eq!((out, counts, losses), ([GREY; 12], [WORD; 11], [LONG; 11]));
            assert!(work_untouched(&work));
        }
    }
}

#[test]
fn varints_spell_and_read_back() {
    for shift in 0..32 {
        for value in [(1u32 << shift) - 1, 1 << shift, u32::MAX >> shift] {
            let mut bytes = spelled(value);
            bytes.push(77);
            assert_eq!(take_field(&bytes), Ok((value, &[77][..])));
        }
    }
    assert_eq!(spelled(300), [172, 2]);
    assert_eq!(spelled(u32::MAX), [255, 255, 255, 255, 15]);
}

/// The refusal of a plate file, with an output of so many places.
fn file_refusal(file: &[u8], places: usize) -> u32 {
    let mut out = vec![GREY; places];
    let answer = read_pgm(file, &mut out);
    let refusal = answer.refusal;
    if refusal != 0 {
        let refused = PlateHead {
            refusal,
            ..PlateHead::default()
        };
        assert_eq!(answer, refused);
        assert!(all_are(&out, GREY));
    }
    refusal
}

#[test]
fn plate_files_that_are_read() {
    let files: [&[u8]; 12] = [
        b"P5 2 1 255 ab",
        b"P5\n2\n1\n255\nab",
        b"P5\t2\r1\t255\rab",
        b"P5\r\n2 \t\r\n 1  255\tab",
        b"P5 00002 01 00255 ab",
        b"P5 #\n2 1 255 ab",
        b"P5 # some 9 9\r2 1 255 ab",
        b"P5 ## #\n#\r\n 2 #x\n#y\r 1 # z\n255 ab",
        b"P5\n#\n#\n\n2\n#\n1\n#\n255\nab",
        b"P5 2 1 0255\nab",
        b"P5 \n\r\t 2\n#\xFF\x00\n1 255 ab",
        b"P5 #P5\n2 1 #255 \n255 ab",
    ];
    for file in files {
        let mut out = [GREY; 5];
        let answer = read_pgm(file, &mut out);
        assert_eq!((answer.refusal, answer.width, answer.height), (0, 2, 1));
        assert_eq!(answer.greatest, 255);
        assert_eq!(out, [97, 98, GREY, GREY, GREY]);
    }
    let mut out = [GREY; 2];
    assert_eq!(read_pgm(b"P5 2 1 255 # ", &mut out).refusal, 0);
    assert_eq!(out, [35, 32]);
}

#[test]
fn plate_files_refused_with_10() {
    let files: [&[u8]; 8] = [
        b"",
        b"P",
        b"5",
        b"P6 2 1 255 ab",
        b"p5 2 1 255 ab",
        b" P5",
        b"#\nP5",
        b"P2",
    ];
    for file in files {
        assert_eq!(file_refusal(file, 9), 10);
    }
}

#[test]
fn plate_files_refused_with_11() {
    let files: [&[u8]; 24] = [
        b"P5",
        b"P5 ",
        b"P52 1 255 ab",
        b"P5#\n2 1 255 ab",
        b"P5 2#\n1 255 ab",
        b"P5 2 1#\n255 ab",
        b"P5 2 1 255#\nab",
        b"P5 2 1 255",
        b"P5 2 1 255ab",
        b"P5 2 1 ",
        b"P5 2 1",
        b"P5 2",
        b"P5 2 ",
        b"P5 -2 1 255 ab",
        b"P5 +2 1 255 ab",
        b"P5 000002 1 255 ab",
        b"P5 2 100000 255 ab",
        b"P5 2 1 000255 ab",
        b"P5 # no end 2 1 255 ab",
        b"P5 2 # no end 1 255 ab",
        b"P5 2 1 #",
        b"P5\x0b2 1 255 ab",
        b"P5\x0c2 1 255 ab",
        b"P5 2 1,255 ab",
    ];
    for file in files {
        assert_eq!(file_refusal(file, 9), 11);
    }
}

#[test]
fn plate_files_refused_behind_the_header() {
    let cases: [(&[u8], u32); 19] = [
        (b"P5 0 1 255 ab", 2),
        (b"P5 2 0 255 ab", 2),
        (b"P5 32769 1 255 ab", 2),
        (b"P5 1 32769 255 ab", 2),
        (b"P5 32768 513 255 ab", 2),
        (b"P5 99999 99999 255 ab", 2),
        (b"P5 2 1 0 ab", 12),
        (b"P5 2 1 65536 abcd", 12),
        (b"P5 2 1 99999 abcd", 12),
        (b"P5 2 1 65535 ab", 14),
        (b"P5 2 1 256 abc", 14),
        (b"P5 2 1 256 abcde", 15),
        (b"P5 2 1 97 ab", 28),
        (b"P5 2 1 1 \x01\x02", 28),
        (b"P5 2 1 256 \x01\x00\x01\x01", 28),
        (b"P5 2 1 65534 \xff\xff\x00\x00", 28),
        (b"P5 2 1 255 a", 14),
        (b"P5 32768 512 255 ab", 14),
        (b"P5 2 1 255 abc", 15),
    ];
    for (file, number) in cases {
        assert_eq!(file_refusal(file, 9), number);
    }
    assert_eq!(file_refusal(b"P5 2 1 255 ab", 1), 5);
    assert_eq!(file_refusal(b"P5 2 1 255 ab", 2), 0);
}

#[test]
fn the_text_of_refusals() {
    let cases: [(&[u8], &str); 8] = [
        (b"", "refused 10\n"),
        (b"P5 2 1 255", "refused 11\n"),
        (b"P5 0 1 255 ", "refused 2\n"),
        (b"P5 2 1 0 ab", "refused 12\n"),
        (b"P5 2 1 25 ab", "refused 28\n"),
        (b"P5 2 1 255 a", "refused 14\n"),
        (b"P5 2 1 255 abc", "refused 15\n"),
        (b"P5 33 32 255 ", "refused 14\n"),
    ];
    for (input, text) in cases {
        assert_eq!(sizelist_text(input), text);
    }
}

#[test]
fn the_text_at_1024_pixels_and_4096_bytes() {
    let most = plate_file(&[3; 1024], 1024, 1, 255);
    assert_eq!(sizelist_text(&most), "size 1024 1 4 1\nheld 0\nrest 3 99\n");
    let beyond = plate_file(&[3; 1025], 1025, 1, 255);
    assert_eq!(sizelist_text(&beyond), "refused 5\n");
    let comment = vec![b'x'; 4_096 - 3 - 1 - 11];
    let full = [&b"P5 #"[..], &comment, b"\n2 1 255\nab"].concat();
    assert_eq!(full.len(), 4_096);
    // greys 97 and 98, both on the trim edge
    assert_eq!(sizelist_text(&full), "size 2 1 4 2\nheld 1\nrest 97 62\n");
    for over in [&full[..], &[0; 4_096], &[b'P'; 9_000]] {
        let input = [over, &[0]].concat();
        assert_eq!(sizelist_text(&input), "refused 6\n");
    }
}
