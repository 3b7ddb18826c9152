//! Large plates, which the second program cannot do, by what is cheap to check: idempotence, nowhere lighter, the cut of
//! the record, the totals of the size list, areas about 65,536. The operations of a test share a work space: to get a
//! new one of 16,777,216 pixels takes as long as some of them take.

mod common;

use common::Chance;
use livukoe::pictures::{self, fine_picture, picture};
use livukoe::Connectivity::{self, Eight, Four, Six};
use livukoe::{Plate, Side, WorkSpace};

fn total(plate: &Plate) -> u64 {
    plate.greys().iter().map(|&grey| u64::from(grey)).sum()
}

/// A plate of the same numbers with other greys.
fn with_greys(plate: &Plate, greys: Vec<u16>) -> Plate {
    Plate::new(plate.width(), plate.height(), plate.greatest(), greys)
}

fn negative(plate: &Plate) -> Plate {
    let greys = plate.greys().iter();
    let greatest = plate.greatest() as u16;
    with_greys(plate, greys.map(|grey| greatest - grey).collect())
}

fn assert_nowhere_lighter(one: &Plate, other: &Plate) {
    let mut pairs = one.greys().iter().zip(other.greys());
    assert!(pairs.all(|(grey, bound)| grey <= bound));
}

/// The plate without its light patches below a limit.
fn without_light(
    work: &mut WorkSpace,
    plate: &Plate,
    connectivity: Connectivity,
    limit: u32,
) -> Plate {
    let clean = work.clean(plate, Side::Light, connectivity, limit);
    clean.expect("a clean plate")
}

/// What holds of cleaning at a limit.
fn check_cleaning(work: &mut WorkSpace, plate: &Plate, connectivity: Connectivity, limit: u32) {
    let light = without_light(work, plate, connectivity, limit);
    assert_nowhere_lighter(&light, plate);
    let again = without_light(work, &light, connectivity, limit);
    assert_eq!(again, light, "cleaned twice");
    let smaller = without_light(work, &light, connectivity, limit.div_ceil(2));
    assert_eq!(smaller, light, "cleaned at a smaller limit");
    let dark = work.clean(&negative(plate), Side::Dark, connectivity, limit);
    let dark = dark.expect("a clean plate");
    assert_eq!(negative(&dark), light, "the dark side of the negative");
}

/// What holds of a plate's record.
fn check_record(work: &mut WorkSpace, plate: &Plate, connectivity: Connectivity, limit: u32) {
    let record = work.record(plate, connectivity).expect("a record");
    assert_eq!(work.plate(&record).expect("its plate"), *plate);
    let clean = without_light(work, plate, connectivity, limit);
    assert_eq!(work.cut(&record, limit).expect("a cut"), clean);
    let sizes = work.sizes(&record).expect("a size list");
    let lost: u64 = sizes.sizes().map(|size| size.loss).sum();
    let rest = u64::from(sizes.darkest()) * plate.greys().len() as u64;
    assert_eq!(lost + sizes.held() + rest, total(plate), "all grey");
    let below = sizes.sizes().filter(|size| size.area < limit as usize);
    let lost_below: u64 = below.map(|size| size.loss).sum();
    assert_eq!(
        total(plate) - lost_below,
        total(&clean),
        "lost below the limit"
    );
    let counted: u64 = sizes.sizes().map(|size| u64::from(size.count)).sum();
    let kept = without_light(work, plate, connectivity, plate.greys().len() as u32);
    assert_eq!(sizes.held() + rest, total(&kept), "what no limit takes");
    let on_edge = work.nodes(&kept, connectivity).expect("nodes").len() as u64;
    assert_eq!(counted + on_edge, u64::from(sizes.nodes()), "every node");
}

/// What holds of a plate's nodes and its maxima.
fn check_nodes(work: &mut WorkSpace, plate: &Plate, connectivity: Connectivity) {
    let nodes = work.nodes(plate, connectivity).expect("nodes");
    assert_eq!(nodes[0].area as usize, plate.greys().len());
    let mut leaf = vec![true; nodes.len()];
    for (number, node) in nodes.iter().enumerate().skip(1) {
        let parent = nodes[node.parent as usize];
        assert!(
            node.parent < number as u32 && parent.level < node.level && parent.area > node.area
        );
        assert_eq!(u32::from(plate.greys()[node.anchor as usize]), node.level);
        leaf[node.parent as usize] = false;
    }
    let marks = work.regional_maxima(plate, connectivity).expect("marks");
    let marked: u64 = total(&marks);
    let leaves = nodes.iter().zip(&leaf).filter(|(_, &leaf)| leaf);
    let area: u64 = leaves.map(|(node, _)| u64::from(node.area)).sum();
    assert_eq!(marked, area, "maxima are the leaves");
}

/// Every picture of bytes and of 16-bit greys.
fn every_picture(width: u32, height: u32) -> impl Iterator<Item = Plate> {
    let coarse = pictures::KINDS.map(|kind| picture(kind, width, height));
    let fine = pictures::FINE_KINDS.map(|kind| fine_picture(kind, width, height));
    coarse.into_iter().chain(fine)
}

#[test]
fn every_kind_of_picture() {
    let work = &mut WorkSpace::new();
    for plate in every_picture(700, 500) {
        for connectivity in Connectivity::ALL {
            for limit in [1, 2, 64, 65_536, 350_000] {
                check_cleaning(work, &plate, connectivity, limit);
            }
            check_record(work, &plate, connectivity, 64);
            check_nodes(work, &plate, connectivity);
        }
    }
}

/// The plate after half a turn.
fn turned(plate: &Plate) -> Plate {
    with_greys(plate, plate.greys().iter().rev().copied().collect())
}

/// With more neighbours a cleaned plate is nowhere darker; a turned plate is cleaned as the plate is.
#[test]
fn the_kinds_compared() {
    let work = &mut WorkSpace::new();
    for (number, plate) in every_picture(700, 500).enumerate() {
        let clean =
            Connectivity::ALL.map(|connectivity| without_light(work, &plate, connectivity, 64));
        for pair in clean.windows(2) {
            assert_nowhere_lighter(&pair[0], &pair[1]);
        }
        for (connectivity, clean) in Connectivity::ALL.into_iter().zip(clean) {
            let after = without_light(work, &turned(&plate), connectivity, 64);
            assert_eq!(turned(&after), clean, "picture {number}, {connectivity}");
        }
    }
}

/// What holds of a plate's file.
fn check_file(plate: &Plate) {
    let file = plate.to_pgm().expect("a file");
    assert_eq!(Plate::from_pgm(&file).expect("its plate"), *plate);
}

/// What holds of a plate of as many pixels as there may be: its file, its cleaning, its nodes and its record, each with a
/// connectivity of its own.
fn check_largest(
    work: &mut WorkSpace,
    plate: &Plate,
    [cleaned, listed, recorded]: [Connectivity; 3],
) {
    check_file(plate);
    check_cleaning(work, plate, cleaned, 65_536);
    check_nodes(work, plate, listed);
    check_record(work, plate, recorded, 100);
}

/// Noise: of 8 bits its nodes, thousands of them at each level; of 16 bits, which has every level and the longest record,
/// all.
#[test]
fn the_largest_squares() {
    let work = &mut WorkSpace::new();
    let coarse = Plate::seeded(1, 4096, 4096).expect("a plate");
    check_file(&coarse);
    check_nodes(work, &coarse, Four);
    drop(coarse);
    let fine = fine_picture("noise", 4096, 4096);
    check_largest(work, &fine, [Four, Six, Eight]);
}

#[test]
fn the_longest_rows() {
    let plate = picture("terrain", 32_768, 512);
    check_largest(&mut WorkSpace::new(), &plate, [Six, Eight, Four]);
}

#[test]
fn the_longest_columns() {
    let plate = picture("serpentine", 512, 32_768);
    check_largest(&mut WorkSpace::new(), &plate, [Eight, Four, Six]);
}

#[test]
fn long_and_thin() {
    let work = &mut WorkSpace::new();
    for (width, height) in [(32_768, 1), (1, 32_768), (32_768, 2), (3, 32_768)] {
        for make in [picture, fine_picture] {
            let plate = make("noise", width, height);
            for connectivity in Connectivity::ALL {
                check_cleaning(work, &plate, connectivity, 5);
                check_record(work, &plate, connectivity, 5);
            }
        }
    }
}

/// The size list of a plate.
fn size_list(plate: &Plate) -> String {
    let record = plate.record(Connectivity::Four).expect("a record");
    record.sizes().expect("a size list").to_string()
}

/// Losses and what is held, of 16,777,216 pixels of the greatest grey that there is: the total is 1.1 x 10^12.
#[test]
fn totals_beyond_32_bits() {
    const EXTENT: usize = 4096;
    const PIXELS: usize = EXTENT * EXTENT;
    const INSIDE: usize = (EXTENT - 2) * (EXTENT - 2);
    let plate = |grey: &dyn Fn(usize) -> u16| {
        let greys = (0..PIXELS).map(grey).collect();
        Plate::new(EXTENT as u32, EXTENT as u32, 65_535, greys)
    };
    let light_inside = plate(&|p| {
        let on_edge = |at| at == 0 || at == EXTENT - 1;
        if on_edge(p / EXTENT) || on_edge(p % EXTENT) {
            0
        } else {
            65_535
        }
    });
    let loss = INSIDE as u64 * 65_535;
    assert_eq!(
        size_list(&light_inside),
        format!("size 4096 4096 4 2\n{INSIDE} 1 {loss}\nheld 0\nrest 0 100\n")
    );
    let one_dark = plate(&|p| if p == PIXELS / 2 + 9 { 0 } else { 65_535 });
    let held = (PIXELS as u64 - 1) * 65_535;
    assert_eq!(
        size_list(&one_dark),
        format!("size 4096 4096 4 2\nheld {held}\nrest 0 100\n")
    );
    assert_eq!(
        size_list(&plate(&|_| 65_535)),
        "size 4096 4096 4 1\nheld 0\nrest 65535 0\n"
    );
}

/// The width and height of a plate with a patch, and the patch's first pixel.
const EXTENT: usize = 300;
const FIRST: usize = EXTENT + 1;

/// A light patch of so many pixels, row by row, on a dark plate whose trim edge it does not reach.
fn patch(pixels: usize) -> Plate {
    let inside = EXTENT - 2;
    let mut greys = vec![20; EXTENT * EXTENT];
    for i in 0..pixels {
        greys[FIRST + i / inside * EXTENT + i % inside] = 200;
    }
    Plate::new(EXTENT as u32, EXTENT as u32, 255, greys)
}

/// A patch stays at every limit up to its area, and goes at the next.
#[test]
fn patches_about_65536() {
    let work = &mut WorkSpace::new();
    for area in [65_535, 65_536, 65_537, 131_072 - 65_536 + 1] {
        let plate = patch(area);
        for limit in 65_534..=65_540u32 {
            for connectivity in Connectivity::ALL {
                let clean = without_light(work, &plate, connectivity, limit);
                let stays = limit as usize <= area;
                assert_eq!(
                    clean.greys()[FIRST],
                    if stays { 200 } else { 20 },
                    "{area}, {limit}"
                );
                let cut = plate
                    .record(connectivity)
                    .and_then(|record| record.cut(limit));
                assert_eq!(cut.expect("a cut"), clean);
            }
        }
        let list = plate
            .record(Connectivity::Four)
            .and_then(|record| record.sizes());
        let text = list.expect("a size list").to_string();
        let loss = 180 * area;
        assert_eq!(
            text,
            format!("size 300 300 4 2\n{area} 1 {loss}\nheld 0\nrest 20 92\n")
        );
    }
}

/// Small patches strewn over a plate: those below the limit go, but for the ones in the first row or column; the others
/// stay whole.
#[test]
fn strewn_patches() {
    let work = &mut WorkSpace::new();
    let mut chance = Chance::new(13);
    let (width, height) = (1200usize, 900usize);
    let mut greys = vec![10u16; width * height];
    let mut wanted = greys.clone();
    for cell in 0..(width / 10) * (height / 10) {
        let (x, y) = (cell % (width / 10) * 10, cell / (width / 10) * 10);
        let (w, h) = (1 + chance.below(9), 1 + chance.below(9));
        let grey = 11 + chance.below(240) as u16;
        for p in (0..w * h).map(|i| (y + i / w) * width + x + i % w) {
            greys[p] = grey;
            if w * h >= 25 || x == 0 || y == 0 {
                wanted[p] = grey;
            }
        }
    }
    let plate = Plate::new(width as u32, height as u32, 255, greys);
    for connectivity in Connectivity::ALL {
        let clean = without_light(work, &plate, connectivity, 25);
        assert!(clean.greys() == wanted);
    }
}
