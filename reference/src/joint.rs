//! A plate's record, the cut of that record and its size list, by one call.

use crate::cleaning::check_limit;
use crate::grid::{Grid, Shape};
use crate::nodes::{cut_of, nodes_of};
use crate::record::record_of;
use crate::sizes::sizes_of;
use crate::work::{check_work, zero_work};

/// The lent outputs: the record's bytes, the cut and the two tables.
#[derive(Debug)]
pub struct JointOutputs<'a> {
    pub record: &'a mut [u8],
    pub out: &'a mut [u16],
    pub counts: &'a mut [u32],
    pub losses: &'a mut [u64],
}

/// The answer.
#[derive(Clone, Copy, Debug, Default, PartialEq, Eq)]
pub struct JointHead {
    pub refusal: u32,
    pub length: usize,
    pub nodes: u32,
    pub darkest: u16,
    pub held: u64,
}

/// Writes the record of a plate, cuts it at the limit and lists its sizes.
#[allow(clippy::too_many_arguments)]
pub fn write_cut_list(
    plate: &[u16],
    width: u32,
    height: u32,
    greatest: u32,
    connectivity: u32,
    limit: u32,
    outputs: JointOutputs,
    work: &mut [u32],
) -> JointHead {
    let shape = Shape::of([width, height, greatest, connectivity]);
    let checked = check_joint(plate, shape, limit, &outputs, work);
    match checked.and_then(|grid| joined(&grid, plate, greatest, limit, outputs, work)) {
        Ok(head) => head,
        Err(refusal) => JointHead {
            refusal,
            ..JointHead::default()
        },
    }
}

/// The conditions that precede any work: 1, 2, 29, 3, 28, 4, then 5 for the cut
/// and the tables, then 6.
fn check_joint(
    plate: &[u16],
    shape: Shape,
    limit: u32,
    outputs: &JointOutputs,
    work: &[u32],
) -> Result<Grid, u32> {
    let grid = check_limit(plate, shape, limit)?;
    let areas = grid.pixels() - 1;
    let tables = outputs.counts.len().min(outputs.losses.len());
    if outputs.out.len() < grid.pixels() || tables < areas {
        return Err(5);
    }
    check_work(work, grid.pixels())?;
    Ok(grid)
}

/// The work: 5 when the record needs more places, else the three answers.
fn joined(
    grid: &Grid,
    plate: &[u16],
    greatest: u32,
    limit: u32,
    outputs: JointOutputs,
    work: &mut [u32],
) -> Result<JointHead, u32> {
    zero_work(work, grid.pixels());
    let nodes = nodes_of(grid, plate);
    let record = record_of(grid, greatest, plate, &nodes);
    if outputs.record.len() < record.len() {
        return Err(5);
    }
    let cut = cut_of(grid, &nodes, limit as usize);
    let sizes = sizes_of(grid, plate, &nodes);
    outputs.record[..record.len()].copy_from_slice(&record);
    outputs.out[..cut.len()].copy_from_slice(&cut);
    outputs.counts[..sizes.counts.len()].copy_from_slice(&sizes.counts);
    outputs.losses[..sizes.losses.len()].copy_from_slice(&sizes.losses);
    Ok(JointHead {
        refusal: 0,
        length: record.len(),
        nodes: nodes.len() as u32,
        darkest: sizes.darkest,
        held: sizes.held,
    })
}
