//! The specification's meanings taken literally, over all sets of pixels of tiny
//! plates, against the flood fills.

use super::helpers::*;
use crate::maxima::maxima_of;
use crate::nodes::{node_sets, nodes_of, own_nodes};
use crate::sizes::{grey_lost, sizes_of};
use crate::*;

/// All sets of pixels that are connected and not empty.
fn connected_sets(grid: &Grid) -> Vec<Vec<usize>> {
    let n = grid.pixels();
    (1u32..1 << n)
        .map(|bits| (0..n).filter(|p| bits >> p & 1 == 1).collect())
        .filter(|set: &Vec<usize>| is_connected(grid, set))
        .collect()
}

/// Can the whole set be reached from its first pixel by touching steps?
fn is_connected(grid: &Grid, set: &[usize]) -> bool {
    let mut reached = vec![set[0]];
    loop {
        let more = set.iter().find(|p| {
            let touched = |q: &usize| touching(grid.width, grid.connectivity, **p, *q);
            !reached.contains(p) && reached.iter().any(touched)
        });
        match more {
            Some(&p) => reached.push(p),
            None => return reached.len() == set.len(),
        }
    }
}

/// The pixels outside the set that touch it.
fn outside(grid: &Grid, set: &[usize]) -> Vec<usize> {
    (0..grid.pixels())
        .filter(|p| !set.contains(p))
        .filter(|&p| {
            set.iter()
                .any(|&q| touching(grid.width, grid.connectivity, p, q))
        })
        .collect()
}

/// Does the set hold a pixel of the trim edge? Such a pixel, and no other, lacks a
/// neighbour on some side.
fn holds_trim_edge(grid: &Grid, set: &[usize]) -> bool {
    let sides = |p: usize| (0..grid.pixels()).filter(move |&q| touching(grid.width, 4, p, q));
    set.iter().any(|&p| sides(p).count() < 4)
}

fn least(plate: &[u16], set: &[usize]) -> u16 {
    set.iter().map(|&p| plate[p]).min().unwrap()
}

fn lightest(plate: &[u16], set: &[usize]) -> u16 {
    set.iter().map(|&p| plate[p]).max().unwrap()
}

/// Runs a check on some tiny plates, each with its greatest grey and all the connected
/// sets; every second one is of greys 257 times as high.
fn on_tiny_plates(check: fn(&Grid, &[u16], u32, &[Vec<usize>])) {
    let mut random = Lcg(20);
    let on_the_edge = [(1, 1), (1, 5), (2, 2), (3, 2), (4, 2), (2, 5)];
    let with_pixels_off_it = [(3, 3), (4, 3), (3, 4), (5, 3), (4, 4)];
    for (width, height) in on_the_edge.into_iter().chain(with_pixels_off_it) {
        for connectivity in CONNECTIVITIES {
            let grid = Grid::new(width, height, connectivity);
            let sets = connected_sets(&grid);
            let rounds = if grid.pixels() < 12 { 60 } else { 10 };
            for round in 0..rounds {
                let times = if round % 2 == 0 { 1 } else { 257 };
                let plate: Vec<u16> = (0..grid.pixels())
                    .map(|_| (random.below(2 + round % 5) * 40 * times) as u16)
                    .collect();
                check(&grid, &plate, 255 * times, &sets);
            }
        }
    }
}

/// At each pixel the best value among the sets that contain it and that have at
/// least the limit's pixels or hold a trim-edge pixel. A set comes with its value
/// and with whether it holds one.
fn best_values(
    (pixels, limit): (usize, usize),
    sets: &[(&[usize], bool, u16)],
    best: fn(u16, u16) -> u16,
) -> Vec<u16> {
    let mut values = vec![None; pixels];
    for &(set, on_edge, value) in sets {
        if set.len() >= limit || on_edge {
            for &p in set {
                values[p] = Some(values[p].map_or(value, |other| best(value, other)));
            }
        }
    }
    values.into_iter().map(Option::unwrap).collect()
}

/// The sets, each with whether it holds a trim-edge pixel and with its value.
fn valued<'a>(
    grid: &Grid,
    sets: impl IntoIterator<Item = &'a Vec<usize>>,
    value: impl Fn(&[usize]) -> u16,
) -> Vec<(&'a [usize], bool, u16)> {
    let valued = |set: &'a Vec<usize>| (&set[..], holds_trim_edge(grid, set), value(set));
    sets.into_iter().map(valued).collect()
}

#[test]
fn cleaned_values_go_by_connected_sets() {
    on_tiny_plates(|grid, plate, m, sets| {
        let (w, h, c) = (grid.width as u32, grid.height as u32, grid.connectivity);
        let n = grid.pixels();
        let by_least = valued(grid, sets, |set| least(plate, set));
        let by_lightest = valued(grid, sets, |set| lightest(plate, set));
        for limit in 1..=n {
            let light = best_values((n, limit), &by_least, u16::max);
            assert_eq!(cleaned(LIGHT, plate, w, h, m, c, limit as u32), light);
            let dark = best_values((n, limit), &by_lightest, u16::min);
            assert_eq!(cleaned(DARK, plate, w, h, m, c, limit as u32), dark);
        }
    });
}

/// The nodes among the sets: the components of "grey at least t" for some t.
fn literal_nodes<'a>(grid: &Grid, plate: &[u16], sets: &'a [Vec<usize>]) -> Vec<&'a Vec<usize>> {
    let is_node = |set: &&Vec<usize>| {
        let (inside, around) = (least(plate, set), outside(grid, set));
        let parts = |t: u16| inside >= t && around.iter().all(|&p| plate[p] < t);
        (0..=255).any(|t| parts(t) || parts(257 * t))
    };
    sets.iter().filter(is_node).collect()
}

#[test]
fn cuts_and_lists_go_by_the_nodes() {
    on_tiny_plates(|grid, plate, m, sets| {
        let (w, h, c) = (grid.width as u32, grid.height as u32, grid.connectivity);
        let n = grid.pixels();
        let record = written(plate, w, h, m, c);
        let nodes = literal_nodes(grid, plate, sets);
        let levels = valued(grid, nodes.iter().copied(), |set| least(plate, set));
        let total = |limit| -> u64 {
            let cut = best_values((n, limit), &levels, u16::max);
            assert_eq!(cut_back(&record, limit as u32, n).1, cut);
            cut.into_iter().map(u64::from).sum()
        };
        let totals: Vec<u64> = (1..=n).map(total).collect();
        let (answer, counts, losses) = sized(&record, n);
        assert_eq!(answer.nodes as usize, nodes.len());
        for a in 1..n {
            let off_edge = levels.iter().filter(|node| node.0.len() == a && !node.1);
            assert_eq!(counts[a - 1] as usize, off_edge.count());
            assert_eq!(losses[a - 1], totals[a - 1] - totals[a]);
        }
        let darkest = plate.iter().copied().min().unwrap();
        assert_eq!(answer.held, totals[n - 1] - n as u64 * u64::from(darkest));
    });
}

#[test]
fn nodes_are_the_components_of_some_t() {
    on_tiny_plates(|grid, plate, _, sets| {
        let literal = literal_nodes(grid, plate, sets);
        let nodes = nodes_of(grid, plate);
        assert_eq!(nodes.len(), literal.len());
        assert!(nodes.iter().all(|node| literal.contains(&&node.pixels)));
    });
}

#[test]
fn what_is_named_of_each_node() {
    on_tiny_plates(|grid, plate, _, _| {
        let nodes = nodes_of(grid, plate);
        for (i, node) in nodes.iter().enumerate() {
            assert_eq!(node.level, least(plate, &node.pixels));
            assert_eq!(node.area, node.pixels.len());
            let at_level = node.pixels.iter().filter(|&&p| plate[p] == node.level);
            assert_eq!(at_level.min(), Some(&node.anchor));
            let parent = nodes
                .iter()
                .enumerate()
                .filter(|(j, other)| {
                    *j != i && node.pixels.iter().all(|p| other.pixels.contains(p))
                })
                .min_by_key(|(_, other)| other.area);
            assert_eq!(node.parent, parent.map_or(0, |(j, _)| j));
            assert_eq!(parent.is_none(), i == 0);
        }
        let numbered = nodes
            .windows(2)
            .all(|pair| (pair[0].level, pair[0].anchor) < (pair[1].level, pair[1].anchor));
        assert!(numbered);
    });
}

#[test]
fn each_pixel_has_one_own_node() {
    on_tiny_plates(|grid, plate, _, _| {
        let nodes = nodes_of(grid, plate);
        for (p, own) in own_nodes(plate, &nodes).into_iter().enumerate() {
            let fits: Vec<usize> = (0..nodes.len())
                .filter(|&i| nodes[i].pixels.contains(&p) && nodes[i].level == plate[p])
                .collect();
            assert_eq!(fits, [own]);
        }
    });
}

#[test]
fn maxima_are_flat_zones_with_darker_neighbours() {
    on_tiny_plates(|grid, plate, m, sets| {
        let literal: Vec<&Vec<usize>> = sets
            .iter()
            .filter(|set| set.iter().all(|&p| plate[p] == plate[set[0]]))
            .filter(|set| outside(grid, set).iter().all(|&p| plate[p] < plate[set[0]]))
            .collect();
        let maxima = maxima_of(grid, plate);
        assert_eq!(maxima.len(), literal.len());
        assert!(maxima.iter().all(|zone| literal.contains(&zone)));
        let (w, h) = (grid.width as u32, grid.height as u32);
        let marks = marked(plate, w, h, m, grid.connectivity);
        for (p, mark) in marks.into_iter().enumerate() {
            assert_eq!(mark == 1, literal.iter().any(|set| set.contains(&p)));
            assert!(mark <= 1);
        }
    });
}

#[test]
fn all_thresholds_give_no_other_nodes() {
    let mut random = Lcg(21);
    for round in 0..100 {
        let (plate, width, height) = random.plate_up_to(6, 600);
        let grid = Grid::new(width, height, in_turn(round));
        let every: Vec<u16> = (0..=600).collect();
        let few = node_sets(&grid, &plate, &grid::thresholds(&plate));
        assert_eq!(few, node_sets(&grid, &plate, &every));
    }
}

#[test]
fn grey_lost_where_no_node_has_the_area_is_zero() {
    let mut random = Lcg(22);
    for round in 0..100 {
        let (plate, width, height, _) = random.plate(5);
        let grid = Grid::new(width, height, in_turn(round));
        let nodes = nodes_of(&grid, &plate);
        let sizes = sizes_of(&grid, &plate, &nodes);
        for a in 1..plate.len() {
            assert_eq!(sizes.losses[a - 1], grey_lost(&grid, &nodes, a));
        }
    }
}
