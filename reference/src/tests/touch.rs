//! The kinds of touch: neighbours listed by hand, what holds of all kinds, and
//! plates on which they differ.

use super::helpers::*;
use crate::cleaning::negative;
use crate::*;

/// The neighbours of each pixel are these.
fn assert_neighbours(width: u32, height: u32, connectivity: u32, expected: &[&[usize]]) {
    let grid = Grid::new(width, height, connectivity);
    assert_eq!(grid.pixels(), expected.len());
    for (p, near) in expected.iter().enumerate() {
        assert_eq!(grid.neighbours(p).collect::<Vec<_>>(), *near);
    }
}

#[test]
fn the_neighbours_of_six_by_hand() {
    // 0 1 2 / 3 4 5 / 6 7 8
    let square: [&[usize]; 9] = [
        &[1, 3, 4],
        &[0, 2, 4, 5],
        &[1, 5],
        &[0, 4, 6, 7],
        &[0, 1, 3, 5, 7, 8],
        &[1, 2, 4, 8],
        &[3, 7],
        &[3, 4, 6, 8],
        &[4, 5, 7],
    ];
    assert_neighbours(3, 3, 6, &square);
    // 0 1 / 2 3
    assert_neighbours(2, 2, 6, &[&[1, 2, 3], &[0, 3], &[0, 3], &[0, 1, 2]]);
}

#[test]
fn in_one_row_and_one_column_all_kinds_are_one() {
    for connectivity in CONNECTIVITIES {
        let line: [&[usize]; 4] = [&[1], &[0, 2], &[1, 3], &[2]];
        assert_neighbours(1, 4, connectivity, &line);
        assert_neighbours(4, 1, connectivity, &line);
        assert_neighbours(1, 1, connectivity, &[&[]]);
    }
}

#[test]
fn the_centre_of_nine() {
    for p in 0..9 {
        assert_eq!(touching(3, 4, 4, p), [1, 3, 5, 7].contains(&p));
        assert_eq!(touching(3, 6, 4, p), [0, 1, 3, 5, 7, 8].contains(&p));
        assert_eq!(touching(3, 8, 4, p), p != 4);
    }
}

/// Runs a check on small grids of each connectivity.
fn on_small_grids(check: impl Fn(&Grid)) {
    for (width, height) in (1..=5).flat_map(|width| (1..=5).map(move |height| (width, height))) {
        for connectivity in CONNECTIVITIES {
            check(&Grid::new(width, height, connectivity));
        }
    }
}

#[test]
fn neighbours_are_the_touching_pixels() {
    on_small_grids(|grid| {
        for p in 0..grid.pixels() {
            let near: Vec<usize> = grid.neighbours(p).collect();
            let touched: Vec<usize> = (0..grid.pixels())
                .filter(|&q| touching(grid.width, grid.connectivity, p, q))
                .collect();
            assert_eq!(near, touched);
        }
    });
}

#[test]
fn neighbours_are_mutual() {
    on_small_grids(|grid| {
        for p in 0..grid.pixels() {
            assert!(!touching(grid.width, grid.connectivity, p, p));
            for q in grid.neighbours(p) {
                assert!(grid.neighbours(q).any(|back| back == p));
            }
        }
    });
}

#[test]
fn every_grid_is_connected() {
    on_small_grids(|grid| {
        let whole: Vec<usize> = (0..grid.pixels()).collect();
        assert_eq!(grid.components(&|_| true), [whole]);
    });
}

/// Every two of the first pixels.
fn pairs(pixels: usize) -> impl Iterator<Item = (usize, usize)> {
    (0..pixels).flat_map(move |p| (0..pixels).map(move |q| (p, q)))
}

#[test]
fn each_kind_has_the_neighbours_of_the_one_before_it_and_more() {
    for (p, q) in pairs(20) {
        for width in 1..=20 {
            let [four, six, eight] = CONNECTIVITIES.map(|c| touching(width, c, p, q));
            assert!(four <= six && six <= eight);
        }
    }
    // in four rows and columns 24 pairs share an edge, and 9 a corner each way
    let touched = |connectivity| pairs(16).filter(move |&(p, q)| touching(4, connectivity, p, q));
    let counts = CONNECTIVITIES.map(|connectivity| touched(connectivity).count());
    assert_eq!(counts, [2 * 24, 2 * (24 + 9), 2 * (24 + 9 + 9)]);
}

/// Rows laid like bricks, each half a brick to the left of the row above: bricks
/// touch beside each other in a row, or half above each other in two.
#[test]
fn six_is_the_touch_of_bricks() {
    let halves = |p: usize| 5 + 2 * (p % 5) - p / 5;
    for (p, q) in pairs(25) {
        let rows = (p / 5).abs_diff(q / 5);
        let apart = (rows, halves(p).abs_diff(halves(q)));
        assert_eq!(touching(5, 6, p, q), apart == (0, 2) || apart == (1, 1));
    }
}

/// Rows 0 0 0 0 / 0 9 0 0 / 0 0 9 0.
const FALLING: [u16; 12] = [0, 0, 0, 0, 0, 9, 0, 0, 0, 0, 9, 0];
/// Rows 0 0 0 0 / 0 0 9 0 / 0 9 0 0.
const RISING: [u16; 12] = [0, 0, 0, 0, 0, 0, 9, 0, 0, 9, 0, 0];
/// Rows 0 7 0 0 / 0 0 9 0 / 0 8 0 0.
const BOTH: [u16; 12] = [0, 7, 0, 0, 0, 0, 9, 0, 0, 8, 0, 0];

/// With a border of 0, so that its light pixels are off the trim edge, the plate
/// cleaned on the light side is this, and its negative on the dark side the negative
/// of this.
fn assert_cleaned(plate: &[u16; 12], connectivity: u32, limit: u32, expected: &[u16; 12]) {
    let (plate, expected) = (framed(plate, 4, 0), framed(expected, 4, 0));
    let light = cleaned(LIGHT, &plate, 6, 5, 255, connectivity, limit);
    assert_eq!(light, expected);
    let dark = cleaned(DARK, &negative(&plate, 255), 6, 5, 255, connectivity, limit);
    assert_eq!(dark, negative(&expected, 255));
}

#[test]
fn cleaning_tells_the_kinds_apart() {
    for (connectivity, falling, rising) in [
        (4, &[0; 12], &[0; 12]),
        (6, &FALLING, &[0; 12]),
        (8, &FALLING, &RISING),
    ] {
        assert_cleaned(&FALLING, connectivity, 2, falling);
        assert_cleaned(&RISING, connectivity, 2, rising);
    }
    let by_six = [0, 7, 0, 0, 0, 0, 7, 0, 0, 0, 0, 0];
    let by_eight = [0, 7, 0, 0, 0, 0, 8, 0, 0, 8, 0, 0];
    let all_seven = [0, 7, 0, 0, 0, 0, 7, 0, 0, 7, 0, 0];
    for (connectivity, two, three) in [
        (4, &[0; 12], &[0; 12]),
        (6, &by_six, &[0; 12]),
        (8, &by_eight, &all_seven),
    ] {
        assert_cleaned(&BOTH, connectivity, 2, two);
        assert_cleaned(&BOTH, connectivity, 3, three);
    }
}

#[test]
fn marks_tell_the_kinds_apart() {
    for (connectivity, maxima) in [(4, &[1, 6, 9][..]), (6, &[6, 9]), (8, &[6])] {
        let marks = marked(&BOTH, 4, 3, 255, connectivity);
        let found: Vec<usize> = (0..12).filter(|&p| marks[p] == 1).collect();
        assert_eq!(found, maxima);
    }
}

#[test]
fn nodes_tell_the_kinds_apart() {
    for (connectivity, parents, areas) in [
        (4, [0, 0, 0, 0], [12, 1, 1, 1]),
        (6, [0, 0, 0, 1], [12, 2, 1, 1]),
        (8, [0, 0, 1, 2], [12, 3, 2, 1]),
    ] {
        let columns = listed(&BOTH, 4, 3, 255, connectivity);
        assert_eq!(columns.levels, [0, 7, 8, 9]);
        assert_eq!(columns.parents, parents);
        assert_eq!(columns.areas, areas);
        assert_eq!(columns.anchors, [0, 1, 9, 6]);
    }
}

#[test]
fn a_record_of_six_by_hand() {
    let old: [u8; 27] = [
        4, 3, 6, 4, 0, 12, 1, 7, 2, 2, 8, 1, 2, 2, 1, 0, 1, 0, 0, 0, 0, 3, 0, 0, 2, 0, 0,
    ];
    let record = in_new_form(&old);
    assert_eq!(written(&BOTH, 4, 3, 255, 6), record);
    assert_eq!(read_back(&old, 12), read_back(&record, 12));
    assert_eq!(read_back(&record, 12), (head(4, 3, 255, 6), BOTH.to_vec()));
    // pixel 6 alone is small and off the trim edge; pixels 1 and 9 are on it
    for limit in 2..=12 {
        let cut = cut_back(&record, limit, 12).1;
        assert_eq!(cut, [0, 7, 0, 0, 0, 0, 7, 0, 0, 8, 0, 0]);
    }
}

#[test]
fn size_lists_tell_the_kinds_apart() {
    for (connectivity, counts, losses) in [
        (4, [3, 0, 0], [24, 0, 0]),
        (6, [2, 1, 0], [10, 14, 0]),
        (8, [1, 1, 1], [1, 2, 21]),
    ] {
        let plate = framed(&BOTH, 4, 0);
        let (answer, all_counts, all_losses) = sized(&written(&plate, 6, 5, 255, connectivity), 30);
        assert_eq!((answer.connectivity, answer.nodes), (connectivity, 4));
        assert_eq!((answer.darkest, answer.held), (0, 0));
        assert_eq!(
            (&all_counts[..3], &all_losses[..3]),
            (&counts[..], &losses[..])
        );
        assert!(all_counts[3..].iter().all(|&count| count == 0));
        assert!(all_losses[3..].iter().all(|&loss| loss == 0));
    }
}

/// Without the border only pixel 6 is off the trim edge. What it loses, down to the
/// grey that it shares with pixel 1 or 9, and what is held make 24.
#[test]
fn size_lists_on_the_trim_edge_tell_the_kinds_apart() {
    for (connectivity, lost, held) in [(4, 9, 7 + 8), (6, 2, 14 + 8), (8, 1, 21 + 2)] {
        let (answer, counts, losses) = sized(&written(&BOTH, 4, 3, 255, connectivity), 12);
        assert_eq!((answer.nodes, answer.darkest), (4, 0));
        assert_eq!((counts[0], losses[0], answer.held), (1, lost, held));
        assert_eq!((&counts[1..], &losses[1..]), (&[0; 10][..], &[0; 10][..]));
    }
}

#[test]
fn the_small_plate_and_its_mirror_image_with_six() {
    let mirrored: Vec<u16> = SMALL
        .chunks(4)
        .flat_map(|row| row.iter().rev().copied())
        .collect();
    for limit in 1..=12 {
        let of =
            |plate: &[u16], connectivity| cleaned(LIGHT, plate, 4, 3, 255, connectivity, limit);
        assert_eq!(of(&SMALL, 6), of(&SMALL, 8));
        assert_eq!(of(&mirrored, 6), of(&mirrored, 4));
    }
}
