//! The slips that the specification names.

use super::helpers::*;
use crate::*;

#[test]
fn a_patch_of_65536_pixels_stays_to_its_own_limit() {
    let (width, height) = (258, 258);
    let inside = |p: usize| (1..257).contains(&(p / 258)) && (1..257).contains(&(p % 258));
    let plate: Vec<u16> = (0..258 * 258)
        .map(|p| if inside(p) { 200 } else { 9 })
        .collect();
    for limit in [1, 65_535, 65_536] {
        assert_eq!(cleaned(LIGHT, &plate, width, height, 255, 4, limit), plate);
    }
    let sunk = cleaned(LIGHT, &plate, width, height, 255, 4, 65_537);
    assert_eq!(sunk, vec![9; 258 * 258]);
    let record = written(&plate, width, height, 255, 4);
    assert_eq!(cut_back(&record, 65_536, plate.len()).1, plate);
    let (answer, counts, losses) = sized(&record, plate.len());
    assert_eq!((answer.nodes, answer.darkest, answer.held), (2, 9, 0));
    assert_eq!((counts[65_535], losses[65_535]), (1, 191 * 65_536));
    assert_eq!(counts.iter().sum::<u32>(), 1);
}

#[test]
fn a_maximum_sinks_until_it_is_large_enough() {
    // one row with a border of darker pixels: three rows of seven
    let framed_row = |row: &[u16; 5]| framed(row, 5, 1);
    let cleaned_row = |row, limit| cleaned(LIGHT, &framed_row(row), 7, 3, 255, 4, limit);
    let stairs = [10, 20, 30, 40, 50];
    assert_eq!(cleaned_row(&stairs, 2), framed_row(&[10, 20, 30, 40, 40]));
    assert_eq!(cleaned_row(&stairs, 4), framed_row(&[10, 20, 20, 20, 20]));
    assert_eq!(cleaned_row(&stairs, 5), framed_row(&[10; 5]));
    assert_eq!(cleaned_row(&stairs, 6), [1; 21]);
    // sunk once, 30 30 30 would be left
    let steps = [10, 30, 50, 30, 10];
    assert_eq!(cleaned_row(&steps, 4), framed_row(&[10; 5]));
    assert_eq!(cleaned_row(&steps, 3), framed_row(&[10, 30, 30, 30, 10]));
}

#[test]
fn nothing_wraps_round_an_edge() {
    for connectivity in CONNECTIVITIES {
        // rows of three: numbers a little apart, then opposite edges and corners
        let apart = [(2, 3), (0, 2), (3, 5), (2, 6), (0, 5)];
        let opposite = [(0, 6), (0, 7), (1, 6), (0, 8)];
        for (p, q) in apart.into_iter().chain(opposite) {
            assert!(!touching(3, connectivity, p, q));
        }
        // 8 and 9 touch only round an edge; then 8 would be no maximum, and one node
        // would have both
        let beside = [1, 1, 9, 8, 1, 1];
        assert_eq!(marked(&beside, 3, 2, 255, connectivity), [0, 0, 1, 1, 0, 0]);
        assert_eq!(listed(&beside, 3, 2, 255, connectivity).areas, [6, 1, 1]);
        let next_but_one = [1, 1, 9, 1, 1, 1, 8, 1, 1];
        let marks = [0, 0, 1, 0, 0, 0, 1, 0, 0];
        assert_eq!(marked(&next_but_one, 3, 3, 255, connectivity), marks);
        assert_eq!(
            listed(&next_but_one, 3, 3, 255, connectivity).areas,
            [9, 1, 1]
        );
    }
}

/// Rows 1 1 9 / 9 1 1 and 1 1 9 / 1 1 1 / 9 1 1 with a border of darker pixels: the
/// light pixels are off the trim edge and go one by one.
#[test]
fn nothing_wraps_inside_a_border() {
    for connectivity in CONNECTIVITIES {
        let beside = framed(&[1, 1, 9, 9, 1, 1], 3, 0);
        let all_one = framed(&[1; 6], 3, 0);
        assert_eq!(cleaned(LIGHT, &beside, 5, 4, 255, connectivity, 2), all_one);
        let next_but_one = framed(&[1, 1, 9, 1, 1, 1, 9, 1, 1], 3, 0);
        let all_one = framed(&[1; 9], 3, 0);
        let light = cleaned(LIGHT, &next_but_one, 5, 5, 255, connectivity, 2);
        assert_eq!(light, all_one);
    }
}

#[test]
fn one_grey_in_two_places_is_two_nodes() {
    let columns = listed(&[9, 1, 9], 3, 1, 255, 8);
    assert_eq!(columns.levels, [1, 9, 9]);
    assert_eq!(columns.parents, [0, 0, 0]);
    assert_eq!(columns.areas, [3, 1, 1]);
    assert_eq!(columns.anchors, [1, 0, 2]);
    // the row 5 0 5 0 5 off the trim edge: three patches of one pixel
    let apart = framed(&[5, 0, 5, 0, 5], 5, 0);
    for connectivity in CONNECTIVITIES {
        assert_eq!(cleaned(LIGHT, &apart, 7, 3, 255, connectivity, 2), [0; 21]);
        let (answer, counts, losses) = sized(&written(&apart, 7, 3, 255, connectivity), 21);
        assert_eq!((answer.nodes, answer.held), (4, 0));
        assert_eq!((counts[0], losses[0]), (3, 15));
        assert_eq!((&counts[1..], &losses[1..]), (&[0; 19][..], &[0; 19][..]));
    }
}

#[test]
fn nodes_are_numbered_by_anchor_and_not_by_first_pixel() {
    let columns = listed(&[90, 0, 30, 90, 0, 0, 30, 0, 0], 3, 3, 255, 4);
    assert_eq!(columns.levels, [0, 30, 30, 90]);
    assert_eq!(columns.parents, [0, 0, 0, 2]);
    assert_eq!(columns.areas, [9, 1, 3, 2]);
    assert_eq!(columns.anchors, [1, 2, 6, 0]);
}
