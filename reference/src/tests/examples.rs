//! All of the specification's examples.

use super::helpers::*;
use crate::*;

/// The small plate's size, with all of 10 except these pixels.
fn tens_except(others: &[(usize, u16)]) -> Vec<u16> {
    let mut plate = vec![10; 12];
    for &(p, grey) in others {
        plate[p] = grey;
    }
    plate
}

#[test]
fn light_cleaning_with_connectivity_4() {
    assert_eq!(cleaned(LIGHT, &SMALL, 4, 3, 255, 4, 1), SMALL);
    // pixel 5 alone is off the trim edge and small; pixel 11 is on it
    let two = tens_except(&[(5, 30), (6, 30), (11, 90)]);
    assert_eq!(cleaned(LIGHT, &SMALL, 4, 3, 255, 4, 2), two);
    let held = tens_except(&[(11, 90)]);
    for limit in 3..=12 {
        assert_eq!(cleaned(LIGHT, &SMALL, 4, 3, 255, 4, limit), held);
    }
}

#[test]
fn light_cleaning_with_connectivity_8() {
    assert_eq!(cleaned(LIGHT, &SMALL, 4, 3, 255, 8, 1), SMALL);
    // pixels 5, 6 and 11 are one patch at 30, and pixel 11 is on the trim edge
    let held = tens_except(&[(5, 30), (6, 30), (11, 90)]);
    for limit in 2..=12 {
        assert_eq!(cleaned(LIGHT, &SMALL, 4, 3, 255, 8, limit), held);
    }
}

#[test]
fn dark_cleaning_with_connectivity_4() {
    // the one dark patch, of nine pixels, is on the trim edge
    for limit in 1..=12 {
        assert_eq!(cleaned(DARK, &SMALL, 4, 3, 255, 4, limit), SMALL);
    }
}

/// The answer without a refusal.
fn ink(percentage: u32) -> Ink {
    Ink {
        refusal: 0,
        percentage,
    }
}

#[test]
fn ink_of_the_ends() {
    for greatest in [1, 2, 254, 255, 256, 65_535] {
        assert_eq!(ink_percentage(0, greatest), ink(100));
        assert_eq!(ink_percentage(greatest as u16, greatest), ink(0));
    }
}

#[test]
fn cuts_give_the_plates_cleaned_of_light_patches() {
    for limit in 1..=12 {
        for record in [&SMALL_RECORD[..], &in_new_form(&SMALL_RECORD)] {
            let (answer, cut) = cut_back(record, limit, 12);
            assert_eq!(answer, head(4, 3, 255, 4));
            assert_eq!(cut, cleaned(LIGHT, &SMALL, 4, 3, 255, 4, limit));
        }
    }
}

#[test]
fn limits_0_and_13_give_4() {
    for limit in [0, 13] {
        let (mut out, mut work) = ([GREY; 12], work_of(96));
        for side in SIDES {
            let cleaning = clean(side, &SMALL, 4, 3, 255, 4, limit, &mut out, &mut work);
            assert_eq!(cleaning.refusal, 4);
        }
        assert!(work_untouched(&work));
        let cutting = cut_record(&SMALL_RECORD, limit, &mut out, &mut work);
        assert_eq!(cutting.refusal, 4);
        assert_eq!(out, [GREY; 12]);
        assert!(work_zeroed(&work, 12));
    }
}

#[test]
fn the_record_of_the_small_plate() {
    let record = in_new_form(&SMALL_RECORD);
    assert_eq!(written(&SMALL, 4, 3, 255, 4), record);
    for record in [&SMALL_RECORD[..], &record] {
        let (answer, plate) = read_back(record, 12);
        assert_eq!(answer, head(4, 3, 255, 4));
        assert_eq!(plate, SMALL);
    }
}

#[test]
fn the_nodes_of_the_small_plate() {
    let columns = listed(&SMALL, 4, 3, 255, 4);
    assert_eq!(columns.levels, [10, 30, 50, 90]);
    assert_eq!(columns.parents, [0, 0, 1, 0]);
    assert_eq!(columns.areas, [12, 2, 1, 1]);
    assert_eq!(columns.anchors, [0, 6, 5, 11]);
}

#[test]
fn the_maxima_of_the_small_plate() {
    let marks = [0, 0, 0, 0, 0, 1, 0, 0, 0, 0, 0, 1];
    assert_eq!(marked(&SMALL, 4, 3, 255, 4), marks);
    assert_eq!(marked(&SMALL, 4, 3, 255, 8), marks);
    assert_eq!(marked(&[33; 6], 3, 2, 255, 4), [1; 6]);
}

#[test]
fn the_size_list_of_the_small_plate() {
    let listed = sized(&SMALL_RECORD, 12);
    assert_eq!(sized(&in_new_form(&SMALL_RECORD), 12), listed);
    let (answer, counts, losses) = listed;
    let expected = SizeHead {
        refusal: 0,
        width: 4,
        height: 3,
        greatest: 255,
        connectivity: 4,
        nodes: 4,
        darkest: 10,
        held: 80,
    };
    assert_eq!(answer, expected);
    assert_eq!(counts, [1, 1, 0, 0, 0, 0, 0, 0, 0, 0, 0]);
    assert_eq!(losses, [20, 40, 0, 0, 0, 0, 0, 0, 0, 0, 0]);
    // losses, held and the darkest grey over every pixel make the total
    assert_eq!(20 + 40 + 80 + 10 * 12, 9 * 10 + 50 + 30 + 90);
}

#[test]
fn the_text_of_the_small_plate() {
    let text = sizelist_text(&plate_file(&SMALL, 4, 3, 255));
    assert_eq!(text, "size 4 3 4 4\n1 1 20\n2 1 40\nheld 80\nrest 10 96\n");
}

#[test]
fn a_record_of_132_and_0_gives_21() {
    for tail in [&[][..], &[3, 4, 4], &[128], &SMALL_RECORD] {
        let record = [&[132, 0], tail].concat();
        let (mut out, mut work) = ([GREY; 12], work_of(96));
        let answer = read_record(&record, &mut out, &mut work);
        assert_eq!(answer.refusal, 21);
        assert_eq!(cut_record(&record, 1, &mut out, &mut work).refusal, 21);
        assert_eq!(out, [GREY; 12]);
        assert!(work_untouched(&work));
    }
}

#[test]
fn one_pixel_of_grey_7() {
    for connectivity in CONNECTIVITIES {
        for side in SIDES {
            assert_eq!(cleaned(side, &[7], 1, 1, 255, connectivity, 1), [7]);
        }
        assert_eq!(marked(&[7], 1, 1, 255, connectivity), [1]);
        let record = written(&[7], 1, 1, 255, connectivity);
        let old = [1, 1, connectivity as u8, 1, 7, 1, 0];
        assert_eq!(record, in_new_form(&old));
        let (answer, counts, losses) = sized(&record, 1);
        assert_eq!((answer.nodes, answer.darkest, answer.held), (1, 7, 0));
        assert!(counts.is_empty() && losses.is_empty());
    }
    let text = sizelist_text(&plate_file(&[7], 1, 1, 255));
    assert_eq!(text, "size 1 1 4 1\nheld 0\nrest 7 97\n");
}

#[test]
fn ink_is_the_nearest_whole_number() {
    for m in [1, 2, 3, 8, 100, 199, 200, 201, 255, 256, 1_000, 65_535] {
        for grey in 0..=m as u16 {
            let exact = (m - u32::from(grey)) * 100;
            let ink = ink_percentage(grey, m);
            let twice = 2 * m * ink.percentage;
            // a half goes up
            assert!(2 * exact < twice + m && twice <= 2 * exact + m);
            assert_eq!(ink.refusal, 0);
        }
    }
    for (grey, percentage) in [(199, 1), (197, 2), (1, 100), (3, 99)] {
        assert_eq!(ink_percentage(grey, 200), ink(percentage));
    }
}
