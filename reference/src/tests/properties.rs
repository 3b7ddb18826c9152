//! Random small plates through writing, reading, cutting and the size list,
//! with the properties of the cuts and of the list checked by brute force.

use super::helpers::*;
use crate::cleaning::negative;
use crate::maxima::maxima_of;
use crate::nodes::nodes_of;
use crate::*;

fn total(plate: &[u16]) -> u64 {
    plate.iter().map(|&grey| u64::from(grey)).sum()
}

fn nowhere_lighter(plate: &[u16], other: &[u16]) -> bool {
    plate.iter().zip(other).all(|(grey, bound)| grey <= bound)
}

/// Has every regional maximum the limit's pixels, or does it reach the trim edge?
fn maxima_qualify(grid: &Grid, plate: &[u16], limit: u32) -> bool {
    maxima_of(grid, plate)
        .iter()
        .all(|zone| zone.len() >= limit as usize || grid.holds_trim_edge(zone))
}

#[test]
fn records_read_back() {
    let mut random = Lcg(30);
    for round in 0..600 {
        let (plate, width, height, greatest) = random.plate(8);
        let connectivity = in_turn(round);
        let record = written(&plate, width, height, greatest, connectivity);
        let (answer, back) = read_back(&record, plate.len());
        assert_eq!(answer, head(width, height, greatest, connectivity));
        assert_eq!(back, plate);
    }
}

#[test]
fn records_agree_with_the_node_list() {
    let mut random = Lcg(31);
    for round in 0..200 {
        let (plate, width, height, greatest) = random.plate(6);
        let connectivity = in_turn(round);
        let columns = listed(&plate, width, height, greatest, connectivity);
        let (answer, counts, _) = sized(
            &written(&plate, width, height, greatest, connectivity),
            plate.len(),
        );
        assert_eq!(answer.nodes as usize, columns.levels.len());
        let grid = Grid::new(width, height, connectivity);
        let nodes = nodes_of(&grid, &plate);
        for (i, &count) in counts.iter().enumerate() {
            let there = (0..nodes.len()).filter(|&node| columns.areas[node] as usize == i + 1);
            let off_edge = there.filter(|&node| !grid.holds_trim_edge(&nodes[node].pixels));
            assert_eq!(off_edge.count(), count as usize);
        }
        for i in 1..columns.levels.len() {
            let parent = columns.parents[i] as usize;
            assert!(parent < i && columns.levels[parent] < columns.levels[i]);
            assert!(columns.areas[parent] > columns.areas[i]);
        }
    }
}

#[test]
fn cuts_and_lists_of_random_plates() {
    let mut random = Lcg(32);
    for round in 0..250 {
        let (plate, width, height, greatest) = random.plate(6);
        let connectivity = in_turn(round);
        check_cuts_and_list(&plate, [width, height, greatest, connectivity]);
    }
}

/// Cuts at every limit, each held against the plate and against cleaning on
/// the light side; then the list held against the cuts.
fn check_cuts_and_list(plate: &[u16], shape: [u32; 4]) {
    let [width, height, greatest, connectivity] = shape;
    let n = plate.len();
    let grid = Grid::new(width, height, connectivity);
    let record = written(plate, width, height, greatest, connectivity);
    let cuts: Vec<Vec<u16>> = (1..=n as u32)
        .map(|limit| {
            let (answer, cut) = cut_back(&record, limit, n);
            assert_eq!(answer, head(width, height, greatest, connectivity));
            assert!(nowhere_lighter(&cut, plate));
            assert!(maxima_qualify(&grid, &cut, limit));
            let light = cleaned(LIGHT, plate, width, height, greatest, connectivity, limit);
            assert_eq!(cut, light);
            cut
        })
        .collect();
    check_list(&grid, plate, &record, &cuts);
}

fn check_list(grid: &Grid, plate: &[u16], record: &[u8], cuts: &[Vec<u16>]) {
    let n = plate.len();
    let (answer, counts, losses) = sized(record, n);
    let darkest = plate.iter().copied().min().unwrap();
    assert_eq!(answer.darkest, darkest);
    assert_eq!(cuts[0], plate);
    let rest = n as u64 * u64::from(darkest);
    assert_eq!(answer.held, total(&cuts[n - 1]) - rest);
    for a in 1..n {
        assert_eq!(losses[a - 1], total(&cuts[a - 1]) - total(&cuts[a]));
        assert_eq!(losses[a - 1] > 0, counts[a - 1] > 0);
    }
    let lost: u64 = losses.iter().sum();
    assert_eq!(total(plate), lost + answer.held + rest);
    let nodes = nodes_of(grid, plate);
    let on_edge = nodes
        .iter()
        .filter(|node| grid.holds_trim_edge(&node.pixels));
    let counted = counts.iter().sum::<u32>() as usize;
    assert_eq!(answer.nodes as usize, on_edge.count() + counted);
}

/// Every plate nowhere lighter than this one, all of whose maxima have the limit's
/// pixels or reach the trim edge, is nowhere lighter than the cut.
fn check_last_property(grid: &Grid, plate: &[u16]) {
    let (w, h) = (grid.width as u32, grid.height as u32);
    let record = written(plate, w, h, 3, grid.connectivity);
    for limit in 1..=plate.len() as u32 {
        let (_, cut) = cut_back(&record, limit, plate.len());
        let mut other = vec![0; plate.len()];
        loop {
            if maxima_qualify(grid, &other, limit) {
                assert!(nowhere_lighter(&other, &cut));
            }
            if !step_below(plate, &mut other) {
                break;
            }
        }
    }
}

/// Steps to the next plate nowhere lighter than the bound, if there is one.
fn step_below(bound: &[u16], plate: &mut [u16]) -> bool {
    for (grey, top) in plate.iter_mut().zip(bound) {
        if *grey < *top {
            *grey += 1;
            return true;
        }
        *grey = 0;
    }
    false
}

#[test]
fn the_cut_is_the_lightest_such_plate() {
    let mut random = Lcg(33);
    for (width, height) in [(1, 1), (4, 1), (2, 2), (3, 2), (2, 4), (3, 3)] {
        for connectivity in CONNECTIVITIES {
            let grid = Grid::new(width, height, connectivity);
            for _ in 0..8 {
                let greys = if grid.pixels() < 9 { 4 } else { 3 };
                let plate: Vec<u16> = (0..grid.pixels())
                    .map(|_| random.below(greys) as u16)
                    .collect();
                check_last_property(&grid, &plate);
            }
        }
    }
}

/// The same on plates of four or six pixels off the trim edge, and two on it that
/// may be light.
#[test]
fn the_cut_is_the_lightest_such_plate_off_the_trim_edge() {
    let mut random = Lcg(40);
    for (width, height) in [(4, 4), (6, 3), (3, 6), (5, 4)] {
        for connectivity in CONNECTIVITIES {
            let grid = Grid::new(width, height, connectivity);
            for _ in 0..4 {
                let n = grid.pixels() as u32;
                let light = [random.below(n), random.below(n)];
                let may_be_light = |p| !grid.on_trim_edge(p) || light.contains(&(p as u32));
                let mut plate = vec![0; grid.pixels()];
                for p in (0..plate.len()).filter(|&p| may_be_light(p)) {
                    plate[p] = random.below(3) as u16;
                }
                check_last_property(&grid, &plate);
            }
        }
    }
}

#[test]
fn altered_records_are_accepted_only_as_records() {
    let mut random = Lcg(34);
    let mut numbers = [0u32; 25];
    for round in 0..6000 {
        let (plate, width, height, greatest) = random.plate(3);
        let mut record = written(&plate, width, height, greatest, in_turn(round));
        if greatest == 255 && round % 2 == 0 {
            record.drain(..FRONT.len());
        }
        alter(&mut random, &mut record);
        let (mut out, mut work) = (vec![GREY; 200], work_of(1600));
        let answer = read_record(&record, &mut out, &mut work);
        numbers[answer.refusal as usize] += 1;
        let n = (answer.width * answer.height) as usize;
        assert!(all_are(&out[n..], GREY));
        if answer.refusal == 0 {
            assert_record(&record, answer, &out[..n]);
        } else {
            let refusal = answer.refusal;
            let refused = RecordHead {
                refusal,
                ..RecordHead::default()
            };
            assert_eq!(answer, refused);
        }
    }
    for number in [0, 20, 21, 22, 23, 24] {
        assert!(numbers[number] > 0, "{number} never met");
    }
}

/// The bytes are the plate's record, in the new form or in the old one.
fn assert_record(bytes: &[u8], head: RecordHead, plate: &[u16]) {
    let RecordHead { greatest: m, .. } = head;
    let new = written(plate, head.width, head.height, m, head.connectivity);
    assert!(bytes == new || m == 255 && in_new_form(bytes) == new);
}

/// Alters a record at one place: a byte changed, taken out or put in.
fn alter(random: &mut Lcg, record: &mut Vec<u8>) {
    let at = random.below(record.len() as u32) as usize;
    let small = random.below(9) as u8;
    match random.below(8) {
        0 => record.truncate(at),
        1 => record.push(small),
        2 => record.insert(at, 128),
        3 => record[at] = random.below(256) as u8,
        4 => drop(record.remove(at)),
        _ => record[at] = small,
    }
}

#[test]
fn the_text_goes_by_the_size_list() {
    let mut random = Lcg(35);
    for _ in 0..200 {
        let (plate, width, height, greatest) = random.plate(7);
        let (answer, counts, losses) =
            sized(&written(&plate, width, height, greatest, 4), plate.len());
        let mut lines = vec![format!("size {width} {height} 4 {}", answer.nodes)];
        for a in (1..plate.len()).filter(|a| counts[a - 1] > 0) {
            lines.push(format!("{a} {} {}", counts[a - 1], losses[a - 1]));
        }
        lines.push(format!("held {}", answer.held));
        let ink = ink_percentage(answer.darkest, greatest).percentage;
        lines.push(format!("rest {} {ink}", answer.darkest));
        let text = sizelist_text(&plate_file(&plate, width, height, greatest));
        assert_eq!(text, lines.join("\n") + "\n");
    }
}

#[test]
fn entries_hold_the_columns() {
    let mut random = Lcg(36);
    for round in 0..200 {
        let (plate, w, h, m) = random.plate(6);
        let c = in_turn(round);
        let columns = listed(&plate, w, h, m, c);
        let count = columns.levels.len();
        let before = NodeEntry::of([WORD; 4]);
        let mut list = vec![before; count + 2];
        let mut work = work_of(8 * plate.len() + EXCESS);
        let answer = node_entries(&plate, w, h, m, c, &mut list, &mut work);
        assert_eq!((answer.refusal, answer.count as usize), (0, count));
        assert!(work_zeroed(&work, plate.len()));
        for i in 0..count {
            let level = columns.levels[i];
            let (parent, area) = (columns.parents[i], columns.areas[i]);
            let entry = NodeEntry::of([level, parent, area, columns.anchors[i]]);
            assert_eq!(node_at(&list, i), entry);
        }
        assert_eq!(list[count..], [before; 2]);
        assert_eq!(node_at(&list, count + 2), NodeEntry::default());
        let mut short = vec![before; count - 1];
        let answer = node_entries(&plate, w, h, m, c, &mut short, &mut work);
        assert_eq!((answer.refusal, answer.count), (5, 0));
        assert_eq!(short, vec![before; count - 1]);
    }
}

#[test]
fn the_joint_operation_is_the_three_in_turn() {
    let mut random = Lcg(37);
    for round in 0..200 {
        let (plate, width, height, greatest) = random.plate(6);
        let connectivity = in_turn(round);
        let n = plate.len();
        let limit = 1 + random.below(n as u32);
        let record = written(&plate, width, height, greatest, connectivity);
        let (_, cut) = cut_back(&record, limit, n);
        let (sizes, counts, losses) = sized(&record, n);
        let mut lent = Joint::of([record.len(), n, n - 1, n - 1, 8 * n]);
        let head = lent.run(&plate, [width, height, greatest, connectivity], limit);
        assert_eq!((head.refusal, head.length), (0, record.len()));
        assert_eq!((head.nodes, head.darkest), (sizes.nodes, sizes.darkest));
        assert_eq!(head.held, sizes.held);
        assert_eq!((lent.record, lent.out), (record, cut));
        assert_eq!((lent.counts, lent.losses), (counts, losses));
        assert!(work_zeroed(&lent.work, n));
    }
}

#[test]
fn a_header_in_the_middle_is_the_header_alone() {
    let mut random = Lcg(38);
    let letters = b"P5 \n#\t\r0129";
    for _ in 0..4_000 {
        let length = random.below(24) as usize;
        let mut header = b"P5 1 1 255 ".to_vec();
        for _ in 0..length {
            let at = random.below(1 + header.len() as u32) as usize;
            let letter = letters[random.below(letters.len() as u32) as usize];
            header.insert(at, letter);
        }
        let before: Vec<u8> = (0..random.below(9)).map(|_| b'5').collect();
        let alone = header_at(&header, 0);
        let placed = header_at(&[&before[..], &header].concat(), before.len());
        let moved = match alone.refusal {
            0 => alone.raster + before.len(),
            _ => 0,
        };
        assert_eq!(
            placed,
            Header {
                raster: moved,
                ..alone
            }
        );
    }
}

#[test]
fn light_on_a_plate_and_dark_on_its_negative_are_negatives() {
    let mut random = Lcg(39);
    for round in 0..600 {
        let (plate, width, height, greatest) = random.plate(8);
        let connectivity = in_turn(round);
        let limit = 1 + random.below(plate.len() as u32);
        let negated = negative(&plate, greatest);
        let light = cleaned(LIGHT, &plate, width, height, greatest, connectivity, limit);
        let dark = cleaned(DARK, &negated, width, height, greatest, connectivity, limit);
        assert_eq!(light, negative(&dark, greatest));
        assert_eq!(dark, negative(&light, greatest));
    }
}

/// A random plate, with two random limits from 1 to its pixels.
fn plate_and_limits(random: &mut Lcg, most: u32) -> (Vec<u16>, [u32; 3], [u32; 2]) {
    let (plate, width, height, greatest) = random.plate(most);
    let bound = 1 + random.below(width * height);
    let limits = [1 + random.below(bound), 1 + random.below(bound)];
    (plate, [width, height, greatest], limits)
}

#[test]
fn two_cleanings_are_one_at_the_greater_limit() {
    let mut random = Lcg(41);
    for round in 0..600 {
        let (plate, [width, height, greatest], [a, b]) = plate_and_limits(&mut random, 8);
        let connectivity = in_turn(round);
        for side in [LIGHT, DARK] {
            let clean = |plate: &[u16], limit| {
                cleaned(side, plate, width, height, greatest, connectivity, limit)
            };
            let once = clean(&plate, a.max(b));
            assert_eq!(clean(&clean(&plate, a), b), once);
            assert_eq!(clean(&once, a.max(b)), once);
        }
    }
}

#[test]
fn cleaning_keeps_nowhere_darker() {
    let mut random = Lcg(42);
    for round in 0..600 {
        let (darker, [width, height, greatest], [limit, raise]) = plate_and_limits(&mut random, 8);
        let connectivity = in_turn(round);
        let greys = darker.iter();
        let raised = greys.map(|&grey| u32::from(grey) + random.below(1 + raise));
        let lighter: Vec<u16> = raised.map(|grey| grey.min(greatest) as u16).collect();
        for side in [LIGHT, DARK] {
            let clean =
                |plate: &[u16]| cleaned(side, plate, width, height, greatest, connectivity, limit);
            assert!(nowhere_lighter(&clean(&darker), &clean(&lighter)));
        }
    }
}
