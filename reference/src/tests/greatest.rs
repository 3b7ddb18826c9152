//! The greatest grey of a plate: 28 and 29, greys of sixteen bits, files of one and two
//! bytes a pixel, ink.

use super::helpers::*;
use crate::*;

/// Numbers that are no greatest grey.
const UNFIT_GREATEST: [u32; 4] = [0, 65_536, 65_791, u32::MAX];

/// The refusals of all operations on the small plate's shape, with ample buffers that are
/// left untouched on a refusal.
fn refusals(plate: &[u16], m: u32, c: u32) -> [u32; 7] {
    let (mut out, mut work) = (vec![GREY; 12], work_of(96));
    let (mut record, mut columns) = (vec![BYTE; 64], Columns::of([12; 4]));
    let mut list = [NodeEntry::of([WORD; 4]); 12];
    let mut joint = Joint::of([64, 12, 11, 11, 96]);
    let refusals = [
        clean(LIGHT, plate, 4, 3, m, c, 2, &mut out, &mut work).refusal,
        clean(DARK, plate, 4, 3, m, c, 2, &mut out, &mut work).refusal,
        regional_maxima(plate, 4, 3, m, c, &mut out, &mut work).refusal,
        node_list(plate, 4, 3, m, c, columns.lent(), &mut work).refusal,
        node_entries(plate, 4, 3, m, c, &mut list, &mut work).refusal,
        write_record(plate, 4, 3, m, c, &mut record, &mut work).refusal,
        joint.run(plate, [4, 3, m, c], 2).refusal,
    ];
    if refusals[0] != 0 {
        assert!(all_are(&out, GREY) && all_are(&record, BYTE) && work_untouched(&work));
        assert_eq!(columns, Columns::of([12; 4]));
        assert_eq!(joint, Joint::of([64, 12, 11, 11, 96]));
        assert!(all_are(&list, NodeEntry::of([WORD; 4])));
    }
    refusals
}

#[test]
fn numbers_that_are_no_greatest_grey_give_29() {
    for connectivity in CONNECTIVITIES {
        for m in UNFIT_GREATEST {
            assert_eq!(refusals(&SMALL, m, connectivity), [29; 7]);
        }
        for m in [90, 254, 255, 256, 65_535] {
            assert_eq!(refusals(&SMALL, m, connectivity), [0; 7]);
        }
    }
}

#[test]
fn a_pixel_above_the_greatest_grey_gives_28_wherever_it_is() {
    for m in [1, 2, 254, 255, 256, 65_534] {
        for p in 0..12 {
            let mut plate = [m as u16; 12];
            assert_eq!(refusals(&plate, m, 6), [0; 7]);
            plate[p] += 1;
            assert_eq!(refusals(&plate, m, 6), [28; 7]);
            assert_eq!(refusals(&plate, m + 1, 6), [0; 7]);
        }
    }
}

/// Greys in the order of the small plate's give its tree, and cleaned values in the
/// places of its own.
#[test]
fn the_small_plate_with_wide_greys() {
    let wide = |grey: u16| match grey {
        10 => 300,
        30 => 20_000,
        50 => 40_000,
        _ => 65_535,
    };
    let plate = SMALL.map(wide);
    for connectivity in CONNECTIVITIES {
        for limit in 1..=12 {
            for side in SIDES {
                let narrow = cleaned(side, &SMALL, 4, 3, 255, connectivity, limit);
                let narrow: Vec<u16> = narrow.into_iter().map(wide).collect();
                let cleaned = cleaned(side, &plate, 4, 3, 65_535, connectivity, limit);
                assert_eq!(cleaned, narrow);
            }
        }
    }
    let columns = listed(&plate, 4, 3, 65_535, 4);
    assert_eq!(columns.levels, [300, 20_000, 40_000, 65_535]);
    assert_eq!(columns.parents, [0, 0, 1, 0]);
    assert_eq!(columns.areas, [12, 2, 1, 1]);
    assert_eq!(columns.anchors, [0, 6, 5, 11]);
    let text = sizelist_text(&plate_file(&plate, 4, 3, 65_535));
    let lines = "size 4 3 4 4\n1 1 20000\n2 1 39400\nheld 65235\nrest 300 100\n";
    assert_eq!(text, lines);
}

#[test]
fn the_dark_side_negates_by_the_greatest_grey() {
    // in the middle a dark pixel off the trim edge
    let plate = [300, 300, 300, 300, 7, 300, 300, 300, 300];
    for m in [300, 301, 1_000, 65_535] {
        assert_eq!(cleaned(DARK, &plate, 3, 3, m, 4, 2), [300; 9]);
        assert_eq!(cleaned(LIGHT, &plate, 3, 3, m, 4, 2), plate);
    }
}

/// A patch of 65,535 off the trim edge: its loss is beyond 32 bits.
#[test]
fn losses_have_64_bits() {
    let inside = |p: usize| (1..301).contains(&(p / 302)) && (1..301).contains(&(p % 302));
    let plate: Vec<u16> = (0..302 * 302)
        .map(|p| if inside(p) { 65_535 } else { 0 })
        .collect();
    let record = written(&plate, 302, 302, 65_535, 4);
    let (answer, counts, losses) = sized(&record, plate.len());
    assert_eq!((answer.darkest, answer.held), (0, 0));
    assert_eq!(counts[89_999], 1);
    assert_eq!(losses[89_999], 65_535 * 90_000);
    assert!(losses[89_999] > u64::from(u32::MAX));
}

#[test]
fn a_raster_has_one_byte_a_pixel_up_to_255_and_then_two() {
    let cases: [(&[u8], u32, [u16; 2]); 7] = [
        (b"P5 2 1 1 \x01\x00", 1, [1, 0]),
        (b"P5 2 1 254 \xfe\x07", 254, [254, 7]),
        (b"P5 2 1 255 \xff\x07", 255, [255, 7]),
        (b"P5 2 1 256 \x01\x00\x00\x07", 256, [256, 7]),
        (b"P5 2 1 257 \x01\x01\x01\x00", 257, [257, 256]),
        (b"P5 2 1 65535 \x01\x02\x03\x04", 65_535, [258, 772]),
        (b"P5 2 1 65535 \xff\xff\xff\xfe", 65_535, [65_535, 65_534]),
    ];
    for (file, greatest, plate) in cases {
        let mut out = [GREY; 3];
        let expected = PlateHead {
            refusal: 0,
            width: 2,
            height: 1,
            greatest,
        };
        assert_eq!(read_pgm(file, &mut out), expected);
        assert_eq!(out, [plate[0], plate[1], GREY]);
    }
}

#[test]
fn ink_gives_29_then_28() {
    let refused = |refusal| Ink {
        refusal,
        percentage: 0,
    };
    for m in UNFIT_GREATEST {
        for grey in [0, 1, 255, 65_535] {
            assert_eq!(ink_percentage(grey, m), refused(29));
        }
    }
    for m in [1, 254, 255, 256, 65_534] {
        for grey in [m as u16 + 1, 65_535] {
            assert_eq!(ink_percentage(grey, m), refused(28));
        }
    }
}
