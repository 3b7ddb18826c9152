//! The operations on plates against the second program, on plates by chance, with buffers short and long: the answers,
//! the outputs with their excess, and the work space are compared whole.

mod common;

use common::{Chance, Plate, Seen};
use livukoe::lent::{self, Image, Node};

/// How many plates of which greatest width and height.
const CASES: [(usize, usize); 2] = [(100_000, 7), (200, 30)];

/// The greatest widths and heights of all cases, one after another.
fn extents() -> impl Iterator<Item = usize> {
    CASES
        .into_iter()
        .flat_map(|(cases, extent)| std::iter::repeat_n(extent, cases))
}

/// Compares an operation with one output, over plates by chance.
fn compare(
    seed: u64,
    proved: impl Fn(Image, u32, &mut [u16], &mut [u32]) -> u32,
    reference: impl Fn(&Plate, u32, &mut [u16], &mut [u32]) -> reference::Done,
    refusals: &[u32],
) {
    let (mut chance, mut seen) = (Chance::new(seed), Seen::default());
    for (case, extent) in extents().enumerate() {
        let plate = chance.job(extent);
        let limit = chance.limit(plate.pixels());
        let mut out = chance.buffer(plate.pixels());
        let mut work = chance.buffer(8 * plate.pixels());
        let (mut out2, mut work2) = (out.clone(), work.clone());
        let answer = proved(plate.image(), limit, &mut out, &mut work);
        let wanted = reference(&plate, limit, &mut out2, &mut work2);
        assert_eq!(answer, wanted.refusal, "case {case}: {plate:?}, {limit}");
        assert_eq!(out, out2, "case {case}: {plate:?}, {limit}");
        assert_eq!(work, work2, "case {case}: {plate:?}, {limit}");
        seen.note(answer);
    }
    seen.assert_all(refusals);
}

/// Compares cleaning on a side.
fn compare_cleaning(seed: u64, side: u32, refusals: &[u32]) {
    compare(
        seed,
        |image, limit, out, work| lent::clean(side, image, limit, out, work),
        |plate, limit, out, work| {
            let (w, h, m, c) = plate.numbers();
            reference::clean(side, &plate.greys, w, h, m, c, limit, out, work)
        },
        refusals,
    );
}

#[test]
fn cleaning_light() {
    compare_cleaning(1, reference::LIGHT, &[0, 1, 2, 3, 4, 5, 6, 28, 29]);
}

#[test]
fn cleaning_dark() {
    compare_cleaning(2, reference::DARK, &[0, 1, 2, 3, 4, 5, 6, 28, 29]);
}

/// Numbers of no side.
const NEITHER: [u32; 3] = [0, 3, u32::MAX];

#[test]
fn cleaning_neither() {
    for side in NEITHER {
        compare_cleaning(5, side, &[26]);
    }
}

/// A side that is neither 1 nor 2 is refused ahead of every other condition, and nothing is written.
#[test]
fn the_side_comes_first() {
    let greys = [10; 12];
    let all_right = ([4, 3, 255, 4], 2, 12, 96);
    let slips = [
        (1, ([4, 3, 255, 5], 2, 12, 96)),
        (2, ([0, 3, 255, 4], 2, 12, 96)),
        (29, ([4, 3, 0, 4], 2, 12, 96)),
        (3, ([4, 2, 255, 4], 2, 12, 96)),
        (28, ([4, 3, 9, 4], 2, 12, 96)),
        (4, ([4, 3, 255, 4], 13, 12, 96)),
        (5, ([4, 3, 255, 4], 2, 11, 96)),
        (6, ([4, 3, 255, 4], 2, 12, 95)),
    ];
    for (refusal, numbers) in slips.into_iter().chain([(0, all_right)]) {
        let ([width, height, greatest, connectivity], limit, places, work_places) = numbers;
        let image = Image {
            greys: &greys,
            width,
            height,
            greatest,
            connectivity,
        };
        let (mut out, mut work) = (vec![77; places], vec![77; work_places]);
        for side in NEITHER {
            assert_eq!(lent::clean(side, image, limit, &mut out, &mut work), 26);
            assert!(out == vec![77; places] && work == vec![77; work_places]);
        }
        let answer = lent::clean(reference::DARK, image, limit, &mut out, &mut work);
        assert_eq!(answer, refusal);
    }
}

/// 4, 6 and 8 are connectivities, and no other number.
#[test]
fn connectivities() {
    for connectivity in (0..=1_000).chain([65_540, 65_542, u32::MAX]) {
        let image = Image {
            greys: &[10; 12],
            width: 4,
            height: 3,
            greatest: 255,
            connectivity,
        };
        let (mut out, mut bytes) = ([0; 12], [0; 64]);
        let (mut list, mut work) = ([Node::default(); 12], [0; 96]);
        let answers = [
            lent::clean(reference::LIGHT, image, 2, &mut out, &mut work),
            lent::regional_maxima(image, &mut out, &mut work),
            lent::node_entries(image, &mut list, &mut work).refusal,
            lent::write_record(image, &mut bytes, &mut work).refusal,
        ];
        let refusal = u32::from(![4, 6, 8].contains(&connectivity));
        assert_eq!(answers, [refusal; 4], "{connectivity}");
    }
}

/// The light side of a plate and the dark side of its negative are negatives.
#[test]
fn negatives() {
    let mut chance = Chance::new(6);
    for (case, extent) in extents().enumerate() {
        let plate = chance.plate(extent);
        let limit = 1 + chance.below(plate.pixels()) as u32;
        let cleaned = |side, plate: &Plate| {
            let (mut out, mut work) = (vec![0; plate.pixels()], vec![0; 8 * plate.pixels()]);
            let refusal = lent::clean(side, plate.image(), limit, &mut out, &mut work);
            assert_eq!(refusal, 0);
            plate.with(out)
        };
        let light = cleaned(reference::LIGHT, &plate);
        let dark = cleaned(reference::DARK, &plate.negative());
        assert_eq!(
            dark.negative().greys,
            light.greys,
            "case {case}: {plate:?}, {limit}"
        );
    }
}

#[test]
fn marking_maxima() {
    compare(
        3,
        |image, _, out, work| lent::regional_maxima(image, out, work),
        |plate, _, out, work| {
            let (w, h, m, c) = plate.numbers();
            reference::regional_maxima(&plate.greys, w, h, m, c, out, work)
        },
        &[0, 1, 2, 3, 5, 6, 28, 29],
    );
}

#[test]
fn listing_nodes() {
    let (mut chance, mut seen) = (Chance::new(4), Seen::default());
    for (case, extent) in extents().enumerate() {
        let plate = chance.job(extent);
        let nodes = count_nodes(&plate);
        let mut columns: [Vec<u32>; 4] = std::array::from_fn(|_| chance.buffer(nodes));
        let mut work = chance.buffer(8 * plate.pixels());
        let (mut columns2, mut work2) = (columns.clone(), work.clone());
        let [levels, parents, areas, anchors] = &mut columns;
        let lent_columns = lent::NodeColumns {
            levels,
            parents,
            areas,
            anchors,
        };
        let answer = lent::node_list(plate.image(), lent_columns, &mut work);
        let wanted = reference_nodes(&plate, &mut columns2, &mut work2);
        assert_eq!(answer.refusal, wanted.refusal, "case {case}: {plate:?}");
        assert_eq!(answer.count, wanted.count, "case {case}: {plate:?}");
        assert_eq!(columns, columns2, "case {case}: {plate:?}");
        assert_eq!(work, work2, "case {case}: {plate:?}");
        seen.note(answer.refusal);
    }
    seen.assert_all(&[0, 1, 2, 3, 5, 6, 28, 29]);
}

#[test]
fn listing_entries() {
    let (mut chance, mut seen) = (Chance::new(15), Seen::default());
    for (case, extent) in extents().enumerate() {
        let plate = chance.job(extent);
        let places = chance.length_near(count_nodes(&plate));
        let mut list = vec![Node::default(); places];
        let mut work = chance.buffer(8 * plate.pixels());
        let mut entries = vec![reference::NodeEntry::default(); places];
        let mut work2 = work.clone();
        let (w, h, m, c) = plate.numbers();
        let answer = lent::node_entries(plate.image(), &mut list, &mut work);
        let wanted = reference::node_entries(&plate.greys, w, h, m, c, &mut entries, &mut work2);
        assert_eq!(answer.refusal, wanted.refusal, "case {case}: {plate:?}");
        assert_eq!(answer.count, wanted.count, "case {case}: {plate:?}");
        let entry = |e: &reference::NodeEntry| Node {
            level: e.level,
            parent: e.parent,
            area: e.area,
            anchor: e.anchor,
        };
        let entries: Vec<Node> = entries.iter().map(entry).collect();
        assert_eq!((list, work), (entries, work2), "case {case}: {plate:?}");
        seen.note(answer.refusal);
    }
    seen.assert_all(&[0, 1, 2, 3, 5, 6, 28, 29]);
}

/// How many nodes a plate has; 1 where it is refused.
fn count_nodes(plate: &Plate) -> usize {
    let mut columns: [Vec<u32>; 4] = std::array::from_fn(|_| vec![0; plate.pixels()]);
    let mut work = vec![0; 8 * plate.pixels()];
    let answer = reference_nodes(plate, &mut columns, &mut work);
    answer.count.max(1) as usize
}

/// The second program's node list.
fn reference_nodes(
    plate: &Plate,
    [levels, parents, areas, anchors]: &mut [Vec<u32>; 4],
    work: &mut [u32],
) -> reference::NodeCount {
    let columns = reference::NodeColumns {
        levels,
        parents,
        areas,
        anchors,
    };
    let (w, h, m, c) = plate.numbers();
    reference::node_list(&plate.greys, w, h, m, c, columns, work)
}

/// Every grey, under greatest greys that are right and wrong.
#[test]
fn ink() {
    let mut seen = Seen::default();
    for greatest in [0, 1, 2, 200, 255, 256, 1_000, 65_535, 65_536, u32::MAX] {
        for grey in 0..=u16::MAX {
            let answer = lent::ink_percentage(grey, greatest);
            let wanted = reference::ink_percentage(grey, greatest);
            assert_eq!(
                (answer.refusal, answer.percentage),
                (wanted.refusal, wanted.percentage),
                "grey {grey} of {greatest}"
            );
            seen.note(answer.refusal);
        }
    }
    seen.assert_all(&[0, 28, 29]);
}
