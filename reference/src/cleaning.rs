//! Cleaning a plate at a limit, on the light or the dark side.

use crate::grid::{check_plate, thresholds, Grid, Shape};
use crate::work::{check_work, zero_work};
use crate::Done;

/// The side on which light patches are cleaned.
pub const LIGHT: u32 = 1;
/// The side on which dark patches are cleaned.
pub const DARK: u32 = 2;
/// Both sides.
pub const SIDES: [u32; 2] = [LIGHT, DARK];

/// Cleans the plate: the side's patches below the limit and off the trim edge.
#[allow(clippy::too_many_arguments)]
pub fn clean(
    side: u32,
    plate: &[u16],
    width: u32,
    height: u32,
    greatest: u32,
    connectivity: u32,
    limit: u32,
    out: &mut [u16],
    work: &mut [u32],
) -> Done {
    let shape = Shape::of([width, height, greatest, connectivity]);
    let grid = match check_cleaning(side, plate, shape, limit, out, work) {
        Ok(grid) => grid,
        Err(refusal) => return Done { refusal },
    };
    let cleaned = match side {
        LIGHT => opened_plate(&grid, plate, limit as usize),
        _ => closed_plate(&grid, plate, greatest, limit as usize),
    };
    out[..cleaned.len()].copy_from_slice(&cleaned);
    zero_work(work, grid.pixels());
    Done::default()
}

/// The conditions of cleaning: 26, 1, 2, 29, 3, 28, 4, 5, 6.
fn check_cleaning(
    side: u32,
    plate: &[u16],
    shape: Shape,
    limit: u32,
    out: &[u16],
    work: &[u32],
) -> Result<Grid, u32> {
    if !SIDES.contains(&side) {
        return Err(26);
    }
    let grid = check_limit(plate, shape, limit)?;
    if out.len() < grid.pixels() {
        return Err(5);
    }
    check_work(work, grid.pixels())?;
    Ok(grid)
}

/// The conditions on a plate and a limit: 1, 2, 29, 3, 28, 4.
pub fn check_limit(plate: &[u16], shape: Shape, limit: u32) -> Result<Grid, u32> {
    let grid = check_plate(plate, shape)?;
    if limit == 0 || limit as usize > grid.pixels() {
        return Err(4);
    }
    Ok(grid)
}

/// Each pixel's opened value: the greatest t for which its component of "grey at
/// least t" has at least the limit's pixels or holds a trim-edge pixel. A connected
/// set with no grey below t that qualifies lies in a component that does.
pub fn opened_plate(grid: &Grid, plate: &[u16], limit: usize) -> Vec<u16> {
    let mut opened = vec![0; grid.pixels()];
    for t in thresholds(plate) {
        for component in grid.components_at_least(plate, t) {
            if !grid.qualifies(&component, limit) {
                continue;
            }
            for p in component {
                opened[p] = t.max(opened[p]);
            }
        }
    }
    opened
}

/// Each pixel's closed value: the negative is opened, and the result negated back.
fn closed_plate(grid: &Grid, plate: &[u16], greatest: u32, limit: usize) -> Vec<u16> {
    let opened = opened_plate(grid, &negative(plate, greatest), limit);
    negative(&opened, greatest)
}

/// The negative: the greatest grey minus each grey.
pub fn negative(plate: &[u16], greatest: u32) -> Vec<u16> {
    let negated = |&grey: &u16| (greatest - u32::from(grey)) as u16;
    plate.iter().map(negated).collect()
}
