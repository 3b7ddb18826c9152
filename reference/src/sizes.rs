//! The size list of a record.

use crate::grid::Grid;
use crate::nodes::{cut_of, Node};
use crate::record::accept_record;

/// The answer of the size list.
#[derive(Clone, Copy, Debug, Default, PartialEq, Eq)]
pub struct SizeHead {
    pub refusal: u32,
    pub width: u32,
    pub height: u32,
    pub greatest: u32,
    pub connectivity: u32,
    pub nodes: u32,
    pub darkest: u16,
    pub held: u64,
}

/// Makes the size list: place a - 1 of the tables is for area a.
pub fn size_list(
    record: &[u8],
    counts: &mut [u32],
    losses: &mut [u64],
    work: &mut [u32],
) -> SizeHead {
    match size_checked(record, counts, losses, work) {
        Ok(head) => head,
        Err(refusal) => SizeHead {
            refusal,
            ..SizeHead::default()
        },
    }
}

/// The size list with its conditions: up to 24, then 5.
fn size_checked(
    record: &[u8],
    counts: &mut [u32],
    losses: &mut [u64],
    work: &mut [u32],
) -> Result<SizeHead, u32> {
    let accepted = accept_record(record, work)?;
    let sizes = sizes_of(&accepted.grid, &accepted.plate, &accepted.nodes);
    let places = accepted.grid.pixels() - 1;
    if counts.len() < places || losses.len() < places {
        return Err(5);
    }
    counts[..places].copy_from_slice(&sizes.counts);
    losses[..places].copy_from_slice(&sizes.losses);
    Ok(SizeHead {
        refusal: 0,
        width: accepted.grid.width as u32,
        height: accepted.grid.height as u32,
        greatest: accepted.greatest,
        connectivity: accepted.grid.connectivity,
        nodes: accepted.nodes.len() as u32,
        darkest: sizes.darkest,
        held: sizes.held,
    })
}

/// The tables for areas 1 to pixels minus 1, the rest and the grey held.
pub struct Sizes {
    pub counts: Vec<u32>,
    pub losses: Vec<u64>,
    pub darkest: u16,
    pub held: u64,
}

/// Counts the nodes of each area that hold no trim-edge pixel, and the grey lost
/// there. The root holds every pixel, so it is never counted.
pub fn sizes_of(grid: &Grid, plate: &[u16], nodes: &[Node]) -> Sizes {
    let pixels = grid.pixels();
    let mut counts = vec![0u32; pixels - 1];
    for node in nodes {
        if !grid.holds_trim_edge(&node.pixels) {
            counts[node.area - 1] += 1;
        }
    }
    // Without a counted node of area a, the same nodes make the cuts at a and a + 1.
    let losses = (1..pixels)
        .map(|a| match counts[a - 1] {
            0 => 0,
            _ => grey_lost(grid, nodes, a),
        })
        .collect();
    let darkest = plate.iter().copied().min().unwrap_or(0);
    Sizes {
        counts,
        losses,
        darkest,
        held: grey_held(grid, nodes, darkest),
    }
}

/// The sum over pixels of the cut at a minus the cut at a + 1.
pub fn grey_lost(grid: &Grid, nodes: &[Node], a: usize) -> u64 {
    let before = cut_of(grid, nodes, a);
    let after = cut_of(grid, nodes, a + 1);
    (0..grid.pixels())
        .map(|p| u64::from(before[p]) - u64::from(after[p]))
        .sum()
}

/// The grey held: the total grey of the cut at the full limit, less the darkest grey
/// times the pixels.
fn grey_held(grid: &Grid, nodes: &[Node], darkest: u16) -> u64 {
    let cut = cut_of(grid, nodes, grid.pixels());
    let total: u64 = cut.into_iter().map(u64::from).sum();
    total - u64::from(darkest) * grid.pixels() as u64
}
