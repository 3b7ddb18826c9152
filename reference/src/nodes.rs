//! The nodes of a plate, kept as sets of pixels, and the node list.

use std::collections::BTreeSet;

use crate::grid::{check_plate, thresholds, Grid, Shape};
use crate::work::{check_work, zero_work};

/// A node: its set of pixels (numbers rising) and what the specification names of it.
#[derive(Clone, Debug, PartialEq, Eq)]
pub struct Node {
    pub pixels: Vec<usize>,
    pub level: u16,
    pub area: usize,
    pub anchor: usize,
    pub parent: usize,
}

/// The lent columns of the node list.
#[derive(Debug)]
pub struct NodeColumns<'a> {
    pub levels: &'a mut [u32],
    pub parents: &'a mut [u32],
    pub areas: &'a mut [u32],
    pub anchors: &'a mut [u32],
}

/// The answer of the node list.
#[derive(Clone, Copy, Debug, Default, PartialEq, Eq)]
pub struct NodeCount {
    pub refusal: u32,
    pub count: u32,
}

/// One node of the list of entries.
#[derive(Clone, Copy, Debug, Default, PartialEq, Eq)]
pub struct NodeEntry {
    pub level: u32,
    pub parent: u32,
    pub area: u32,
    pub anchor: u32,
}

impl NodeEntry {
    /// An entry of these numbers: level, parent, area, anchor.
    pub fn of([level, parent, area, anchor]: [u32; 4]) -> NodeEntry {
        NodeEntry {
            level,
            parent,
            area,
            anchor,
        }
    }

    /// Level, parent, area, anchor.
    pub fn numbers(&self) -> [u32; 4] {
        [self.level, self.parent, self.area, self.anchor]
    }
}

/// Lists the nodes as columns. The root's parent is given as 0.
pub fn node_list(
    plate: &[u16],
    width: u32,
    height: u32,
    greatest: u32,
    connectivity: u32,
    columns: NodeColumns,
    work: &mut [u32],
) -> NodeCount {
    let shape = Shape::of([width, height, greatest, connectivity]);
    let listed = listed_nodes(plate, shape, columns.places(), work);
    NodeCount::of(listed.map(|nodes| {
        for (i, node) in nodes.iter().enumerate() {
            columns.levels[i] = node.level.into();
            columns.parents[i] = node.parent as u32;
            columns.areas[i] = node.area as u32;
            columns.anchors[i] = node.anchor as u32;
        }
        nodes.len()
    }))
}

/// Lists the nodes as entries of one list.
pub fn node_entries(
    plate: &[u16],
    width: u32,
    height: u32,
    greatest: u32,
    connectivity: u32,
    list: &mut [NodeEntry],
    work: &mut [u32],
) -> NodeCount {
    let shape = Shape::of([width, height, greatest, connectivity]);
    let listed = listed_nodes(plate, shape, list.len(), work);
    NodeCount::of(listed.map(|nodes| {
        for (entry, node) in list.iter_mut().zip(&nodes) {
            *entry = NodeEntry {
                level: node.level.into(),
                parent: node.parent as u32,
                area: node.area as u32,
                anchor: node.anchor as u32,
            };
        }
        nodes.len()
    }))
}

/// The entry at a place of the list; all zeros beyond its end.
pub fn node_at(list: &[NodeEntry], at: usize) -> NodeEntry {
    list.get(at).copied().unwrap_or_default()
}

/// The nodes for a list of so many places, with the conditions: 1, 2, 29,
/// 3, 28, 6, 5.
fn listed_nodes(
    plate: &[u16],
    shape: Shape,
    places: usize,
    work: &mut [u32],
) -> Result<Vec<Node>, u32> {
    let grid = check_plate(plate, shape)?;
    check_work(work, grid.pixels())?;
    zero_work(work, grid.pixels());
    let nodes = nodes_of(&grid, plate);
    if nodes.len() > places {
        return Err(5);
    }
    Ok(nodes)
}

impl NodeCount {
    /// The answer: the number of nodes, or the refusal.
    fn of(listed: Result<usize, u32>) -> NodeCount {
        match listed {
            Ok(count) => NodeCount {
                refusal: 0,
                count: count as u32,
            },
            Err(refusal) => NodeCount { refusal, count: 0 },
        }
    }
}

impl NodeColumns<'_> {
    /// The places of the shortest column.
    fn places(&self) -> usize {
        let first = self.levels.len().min(self.parents.len());
        first.min(self.areas.len()).min(self.anchors.len())
    }
}

/// All nodes, numbered by level rising, then anchor rising.
pub fn nodes_of(grid: &Grid, plate: &[u16]) -> Vec<Node> {
    let sets = node_sets(grid, plate, &thresholds(plate));
    let mut nodes: Vec<Node> = sets
        .into_iter()
        .map(|pixels| described(plate, pixels))
        .collect();
    nodes.sort_by_key(|node| (node.level, node.anchor));
    let holders = holders_of(&nodes, grid.pixels());
    for i in 0..nodes.len() {
        nodes[i].parent = parent_of(&nodes, &holders, i);
    }
    nodes
}

/// The components of "grey at least t" for each t given, duplicates dropped.
pub fn node_sets(grid: &Grid, plate: &[u16], ts: &[u16]) -> BTreeSet<Vec<usize>> {
    let mut sets = BTreeSet::new();
    for &t in ts {
        sets.extend(grid.components_at_least(plate, t));
    }
    sets
}

/// A node from its set of pixels, its parent still to be found.
fn described(plate: &[u16], pixels: Vec<usize>) -> Node {
    let level = pixels.iter().map(|&p| plate[p]).min().unwrap_or(0);
    let at_level = pixels.iter().copied().filter(|&p| plate[p] == level);
    Node {
        level,
        area: pixels.len(),
        anchor: at_level.min().unwrap_or(0),
        parent: 0,
        pixels,
    }
}

/// For each pixel the numbers of the nodes containing it, area rising.
fn holders_of(nodes: &[Node], pixels: usize) -> Vec<Vec<usize>> {
    let mut by_area: Vec<usize> = (0..nodes.len()).collect();
    by_area.sort_by_key(|&i| nodes[i].area);
    let mut holders = vec![Vec::new(); pixels];
    for i in by_area {
        for &p in &nodes[i].pixels {
            holders[p].push(i);
        }
    }
    holders
}

/// The smallest node strictly containing node i; 0 for the root. A node that
/// contains node i contains its anchor, so only those holders are looked at.
fn parent_of(nodes: &[Node], holders: &[Vec<usize>], i: usize) -> usize {
    holders[nodes[i].anchor]
        .iter()
        .copied()
        .find(|&j| strictly_contains(&nodes[j], &nodes[i]))
        .unwrap_or(0)
}

/// Does the outer set hold every pixel of the inner one, and more?
fn strictly_contains(outer: &Node, inner: &Node) -> bool {
    outer.area > inner.area
        && inner
            .pixels
            .iter()
            .all(|p| outer.pixels.binary_search(p).is_ok())
}

/// Each pixel's own node: the one containing it whose level is its grey.
pub fn own_nodes(plate: &[u16], nodes: &[Node]) -> Vec<usize> {
    let mut own = vec![0; plate.len()];
    for (i, node) in nodes.iter().enumerate() {
        for &p in &node.pixels {
            if plate[p] == node.level {
                own[p] = i;
            }
        }
    }
    own
}

/// The cut at a limit: at each pixel the highest level among the nodes containing
/// it that have area at least the limit or hold a trim-edge pixel.
pub fn cut_of(grid: &Grid, nodes: &[Node], limit: usize) -> Vec<u16> {
    let mut cut = vec![0; grid.pixels()];
    for node in nodes {
        if !grid.qualifies(&node.pixels, limit) {
            continue;
        }
        for &p in &node.pixels {
            cut[p] = node.level.max(cut[p]);
        }
    }
    cut
}
