//! Patches that reach the trim edge, the first or last row or column: they stay at every limit, and only they.

mod common;

use common::Chance;
use livukoe::{Connectivity, Plate, Side};
use reference::grid::thresholds;
use reference::Grid;

const WIDTH: usize = 9;
const HEIGHT: usize = 7;
const PIXELS: usize = WIDTH * HEIGHT;

/// The greatest grey of the plates with a patch.
const GREATEST: u32 = 255;

/// The grey around a patch, and the patch's own by side.
const GROUND: u16 = 100;

fn grey_of(side: Side) -> u16 {
    match side {
        Side::Light => 180,
        Side::Dark => 20,
    }
}

/// A plate with one patch, 3 x 2 pixels, whose upper left pixel stands in this column and row.
fn patch(side: Side, column: usize, row: usize) -> Plate {
    let mut greys = vec![GROUND; PIXELS];
    for i in 0..6 {
        greys[(row + i / 3) * WIDTH + column + i % 3] = grey_of(side);
    }
    Plate::new(WIDTH as u32, HEIGHT as u32, GREATEST, greys)
}

fn cleaned(plate: &Plate, side: Side, connectivity: Connectivity, limit: u32) -> Plate {
    let clean = plate.clean(side, connectivity, limit);
    clean.expect("a clean plate")
}

/// The columns and rows at which the patch reaches the edge: on the left, right, upper and lower border, and in the corners.
const ON_THE_EDGE: [(usize, usize); 8] = [
    (0, 3),
    (6, 3),
    (4, 0),
    (4, 5),
    (0, 0),
    (6, 0),
    (0, 5),
    (6, 5),
];

#[test]
fn patches_on_the_edge_stay() {
    for side in Side::ALL {
        for connectivity in Connectivity::ALL {
            for (column, row) in ON_THE_EDGE {
                let plate = patch(side, column, row);
                for limit in 1..=PIXELS as u32 {
                    let clean = cleaned(&plate, side, connectivity, limit);
                    assert_eq!(clean, plate, "{side}, {limit}, {column}, {row}");
                }
            }
        }
    }
}

/// The same patches one pixel inside.
#[test]
fn patches_beside_the_edge_go() {
    let inside = |at: usize, extent: usize, length: usize| at.clamp(1, extent - length - 1);
    let flat = vec![GROUND; PIXELS];
    let flat = Plate::new(WIDTH as u32, HEIGHT as u32, GREATEST, flat);
    for side in Side::ALL {
        for connectivity in Connectivity::ALL {
            for (column, row) in ON_THE_EDGE {
                let plate = patch(side, inside(column, WIDTH, 3), inside(row, HEIGHT, 2));
                for limit in 1..=PIXELS as u32 {
                    let clean = cleaned(&plate, side, connectivity, limit);
                    let wanted = if limit <= 6 { &plate } else { &flat };
                    assert_eq!(clean, *wanted, "{side}, {limit}, {column}, {row}");
                }
            }
        }
    }
}

/// Records of both: the cuts, and what the size list counts, loses and holds.
#[test]
fn records_of_patches() {
    for connectivity in Connectivity::ALL {
        let list = |column, row| {
            let plate = patch(Side::Light, column, row);
            let record = plate.record(connectivity).expect("a record");
            for limit in 1..=PIXELS as u32 {
                let clean = cleaned(&plate, Side::Light, connectivity, limit);
                assert_eq!(record.cut(limit), Ok(clean));
            }
            record.sizes().expect("a size list").to_string()
        };
        for (column, row) in ON_THE_EDGE {
            let wanted = format!("size 9 7 {connectivity} 2\nheld 480\nrest 100 61\n");
            assert_eq!(list(column, row), wanted);
        }
        let wanted = format!("size 9 7 {connectivity} 2\n6 1 480\nheld 0\nrest 100 61\n");
        assert_eq!(list(1, 1), wanted);
    }
}

/// Where every pixel is on the edge, nothing goes.
#[test]
fn narrow_plates() {
    let mut chance = Chance::new(18);
    for (width, height) in [(1, 1), (1, 40), (40, 1), (2, 40), (40, 2), (2, 2)] {
        let pixels = width * height;
        let greys = (0..pixels).map(|_| chance.next() as u16).collect();
        let plate = Plate::new(width, height, 65_535, greys);
        for side in Side::ALL {
            for connectivity in Connectivity::ALL {
                for limit in [1, pixels.div_ceil(2), pixels] {
                    assert_eq!(cleaned(&plate, side, connectivity, limit), plate);
                }
            }
        }
    }
}

/// The area opening of the literature, which has no trim edge, by brute force.
fn area_opening(plate: &Plate, connectivity: Connectivity, limit: u32) -> Plate {
    let grid = Grid::new(plate.width(), plate.height(), connectivity.number());
    let mut greys = vec![0; plate.greys().len()];
    for t in thresholds(plate.greys()) {
        let components = grid.components_at_least(plate.greys(), t).into_iter();
        for component in components.filter(|component| component.len() >= limit as usize) {
            for p in component {
                greys[p] = t.max(greys[p]);
            }
        }
    }
    with_greys(plate, greys)
}

/// A plate of the same numbers with other greys.
fn with_greys(plate: &Plate, greys: Vec<u16>) -> Plate {
    Plate::new(plate.width(), plate.height(), plate.greatest(), greys)
}

fn negative(plate: &Plate) -> Plate {
    let greys = plate.greys().iter();
    let greatest = plate.greatest() as u16;
    with_greys(plate, greys.map(|grey| greatest - grey).collect())
}

/// A frame is taken off again, whatever the sizes.
#[test]
fn frames() {
    let mut chance = Chance::new(20);
    for (width, height) in [(1, 1), (1, 3), (4, 1), (5, 4)] {
        let greys = (0..width * height).map(|_| chance.next() as u16);
        let plate = Plate::new(width, height, 65_535, greys.collect());
        let framed = plate.framed(777);
        assert_eq!((framed.width(), framed.height()), (width + 2, height + 2));
        assert_eq!(framed.unframed(), plate);
    }
    for plate in [
        Plate::new(0, 0, 255, vec![]),
        Plate::new(0, 3, 255, vec![7; 2]),
        Plate::new(u32::MAX, 1, 255, vec![]),
    ] {
        assert_eq!(plate.unframed().greys(), []);
    }
    let none = Plate::new(0, 0, 1_000, vec![]).framed(777);
    assert_eq!(none, Plate::new(2, 2, 1_000, vec![777; 4]));
}

/// Cleaning inside a frame, of 0 for the light side and of the greatest grey for the dark side, is the area opening or closing.
#[test]
fn plates_in_a_frame() {
    let mut chance = Chance::new(19);
    for case in 0..20_000 {
        let job = chance.plate(7);
        let limit = 1 + chance.below(job.pixels()) as u32;
        let connectivity = job.connectivity.try_into().expect("a connectivity");
        let plate = job.owned();
        let light = cleaned(&plate.framed(0), Side::Light, connectivity, limit);
        let opening = area_opening(&plate, connectivity, limit);
        assert_eq!(light.unframed(), opening, "case {case}: {plate:?}, {limit}");
        let dark = cleaned(
            &plate.framed(job.greatest as u16),
            Side::Dark,
            connectivity,
            limit,
        );
        let closing = negative(&area_opening(&negative(&plate), connectivity, limit));
        assert_eq!(dark.unframed(), closing, "case {case}: {plate:?}, {limit}");
    }
}
