//! Patches on the trim edge, the first or last row or column: they stay at every
//! limit, on both sides. Most plates here are four rows of five:
//!
//!  0  1  2  3  4
//!  5  6  7  8  9
//! 10 11 12 13 14
//! 15 16 17 18 19

use super::helpers::*;
use crate::cleaning::negative;
use crate::*;

/// The pixels off the trim edge.
const OFF_EDGE: [usize; 6] = [6, 7, 8, 11, 12, 13];

/// Four rows of five, all of one grey except these pixels.
fn all_except(grey: u16, others: &[(usize, u16)]) -> Vec<u16> {
    let mut plate = vec![grey; 20];
    for &(p, other) in others {
        plate[p] = other;
    }
    plate
}

/// At every limit from 2 to 20 the plate of four rows of five becomes this: cleaned on
/// the light side, as a cut, and by negatives on the dark side.
fn assert_light(plate: &[u16], connectivity: u32, expected: &[u16]) {
    assert_eq!(cleaned(LIGHT, plate, 5, 4, 255, connectivity, 1), plate);
    let record = written(plate, 5, 4, 255, connectivity);
    for limit in 2..=20 {
        let light = cleaned(LIGHT, plate, 5, 4, 255, connectivity, limit);
        assert_eq!(light, expected);
        assert_eq!(cut_back(&record, limit, 20).1, expected);
        let dark = cleaned(DARK, &negative(plate, 255), 5, 4, 255, connectivity, limit);
        assert_eq!(dark, negative(expected, 255));
    }
}

/// At every limit from 2 to 20 the plate cleaned on the dark side becomes this.
fn assert_dark(plate: &[u16], connectivity: u32, expected: &[u16]) {
    for limit in 2..=20 {
        let dark = cleaned(DARK, plate, 5, 4, 255, connectivity, limit);
        assert_eq!(dark, expected);
    }
}

#[test]
fn the_pixels_on_the_edge() {
    let grid = Grid::new(5, 4, 4);
    for p in 0..20 {
        assert_eq!(grid.on_trim_edge(p), !OFF_EDGE.contains(&p));
        assert_eq!(grid.holds_trim_edge(&[7, p]), !OFF_EDGE.contains(&p));
    }
    assert!(!grid.holds_trim_edge(&OFF_EDGE) && !grid.holds_trim_edge(&[]));
}

#[test]
fn a_light_patch_on_the_edge_stays_at_every_limit() {
    // pixels 5 and 6 are one patch from the left column; pixel 13 is off the edge
    let plate = all_except(10, &[(5, 60), (6, 60), (13, 40)]);
    for connectivity in CONNECTIVITIES {
        assert_light(&plate, connectivity, &all_except(10, &[(5, 60), (6, 60)]));
    }
}

#[test]
fn a_dark_patch_on_the_edge_stays_at_every_limit() {
    // pixel 17 is in the last row; pixel 7 is off the edge
    let plate = all_except(200, &[(17, 20), (7, 30)]);
    for connectivity in CONNECTIVITIES {
        assert_dark(&plate, connectivity, &all_except(200, &[(17, 20)]));
        // a dark patch is no patch of the light side, where nothing is small
        assert_light(&plate, connectivity, &plate);
    }
}

#[test]
fn each_border_and_each_corner_by_itself() {
    for connectivity in CONNECTIVITIES {
        for p in 0..20 {
            let light = all_except(10, &[(p, 90)]);
            let dark = all_except(90, &[(p, 10)]);
            if OFF_EDGE.contains(&p) {
                assert_light(&light, connectivity, &[10; 20]);
                assert_dark(&dark, connectivity, &[90; 20]);
            } else {
                assert_light(&light, connectivity, &light);
                assert_dark(&dark, connectivity, &dark);
            }
        }
    }
}

/// Light pixels off the edge, each with the corner neighbour on the edge that it has
/// in one direction, and the least connectivity with which the two touch.
const CORNERS: [(usize, usize, u32); 4] = [(6, 0, 6), (8, 4, 8), (11, 15, 8), (13, 19, 6)];

#[test]
fn a_corner_neighbour_on_the_edge_holds_a_patch_only_where_they_touch() {
    for (p, corner, least) in CORNERS {
        let plate = all_except(10, &[(p, 90), (corner, 90)]);
        for connectivity in CONNECTIVITIES {
            let expected = match connectivity < least {
                true => all_except(10, &[(corner, 90)]),
                false => plate.clone(),
            };
            assert_light(&plate, connectivity, &expected);
        }
    }
}

#[test]
fn a_patch_sinks_to_the_patch_that_reaches_the_edge() {
    // the lighter pixel alone is off the edge, at 30 it has its corner neighbour
    for (p, corner, least) in CORNERS {
        let plate = all_except(10, &[(p, 90), (corner, 30)]);
        for connectivity in CONNECTIVITIES {
            let sunk = if connectivity < least { 10 } else { 30 };
            let expected = all_except(10, &[(p, sunk), (corner, 30)]);
            assert_light(&plate, connectivity, &expected);
        }
    }
}

#[test]
fn a_node_on_the_edge_stays_and_its_small_child_goes() {
    let plate = all_except(0, &[(5, 30), (6, 30), (7, 50), (8, 30)]);
    let expected = all_except(0, &[(5, 30), (6, 30), (7, 30), (8, 30)]);
    for connectivity in CONNECTIVITIES {
        assert_light(&plate, connectivity, &expected);
        let (answer, counts, losses) = sized(&written(&plate, 5, 4, 255, connectivity), 20);
        assert_eq!((answer.nodes, answer.darkest, answer.held), (3, 0, 120));
        assert_eq!((counts[0], losses[0]), (1, 20));
        assert_eq!((&counts[1..], &losses[1..]), (&[0; 18][..], &[0; 18][..]));
    }
}

#[test]
fn where_every_pixel_is_on_the_edge_cleaning_changes_nothing() {
    let mut random = Lcg(50);
    let sizes = [(1, 1), (7, 1), (1, 7), (2, 2), (6, 2), (2, 6)];
    for (width, height) in sizes {
        let n = (width * height) as usize;
        for connectivity in CONNECTIVITIES {
            let plate: Vec<u16> = (0..n).map(|_| random.below(256) as u16).collect();
            for limit in 1..=n as u32 {
                for side in SIDES {
                    let out = cleaned(side, &plate, width, height, 255, connectivity, limit);
                    assert_eq!(out, plate);
                }
            }
            let (answer, counts, losses) =
                sized(&written(&plate, width, height, 255, connectivity), n);
            let above = |&grey: &u16| u64::from(grey - answer.darkest);
            assert_eq!(answer.held, plate.iter().map(above).sum::<u64>());
            assert!(counts.iter().all(|&count| count == 0));
            assert!(losses.iter().all(|&loss| loss == 0));
        }
    }
}

#[test]
fn pixels_on_the_edge_never_change() {
    let mut random = Lcg(51);
    for round in 0..200 {
        let (plate, width, height, greatest) = random.plate(8);
        let grid = Grid::new(width, height, in_turn(round));
        let limit = 1 + random.below(plate.len() as u32);
        for side in SIDES {
            let out = cleaned(
                side,
                &plate,
                width,
                height,
                greatest,
                grid.connectivity,
                limit,
            );
            let on_edge = (0..plate.len()).filter(|&p| grid.on_trim_edge(p));
            assert!(on_edge.into_iter().all(|p| out[p] == plate[p]));
        }
    }
}

/// The small plate with a border of 1: its own pixels are all off the edge, and the
/// light side is as it was without the rule.
#[test]
fn the_small_plate_in_a_darker_border() {
    let plate = framed(&SMALL, 4, 1);
    let text = sizelist_text(&plate_file(&plate, 6, 5, 255));
    let lines = [
        "size 6 5 4 5",
        "1 2 100",
        "2 1 40",
        "12 1 108",
        "held 0",
        "rest 1 100",
    ];
    assert_eq!(text, lines.join("\n") + "\n");
    assert_eq!(100 + 40 + 108 + 30, 260 + 18);
    let at = |limit| cleaned(LIGHT, &plate, 6, 5, 255, 4, limit);
    assert_eq!(at(1), plate);
    let two = [10, 10, 10, 10, 10, 30, 30, 10, 10, 10, 10, 10];
    assert_eq!(at(2), framed(&two, 4, 1));
    for limit in 3..=12 {
        assert_eq!(at(limit), framed(&[10; 12], 4, 1));
    }
    for limit in 13..=30 {
        assert_eq!(at(limit), [1; 30]);
    }
}

/// The small plate with a border of 200: pixel 11 joins the border at 90, and what is
/// dark is off the edge.
#[test]
fn the_small_plate_in_a_lighter_border() {
    let plate = framed(&SMALL, 4, 200);
    let text = sizelist_text(&plate_file(&plate, 6, 5, 255));
    let lines = [
        "size 6 5 4 5",
        "1 1 20",
        "2 1 40",
        "held 3500",
        "rest 10 96",
    ];
    assert_eq!(text, lines.join("\n") + "\n");
    assert_eq!(19 * 80 + 18 * 110, 3_500);
    assert_eq!(20 + 40 + 3_500 + 30 * 10, 260 + 18 * 200);
    let at = |limit| cleaned(DARK, &plate, 6, 5, 255, 4, limit);
    // nine pixels of 10; ten to 30, eleven to 50 and all twelve to 90
    for limit in 1..=9 {
        assert_eq!(at(limit), plate);
    }
    for (limit, least) in [(10, 30), (11, 50), (12, 90), (13, 200), (30, 200)] {
        let raised: Vec<u16> = plate.iter().map(|&grey| grey.max(least)).collect();
        assert_eq!(at(limit), raised);
    }
}
