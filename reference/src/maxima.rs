//! Marking the regional maxima of a plate.

use crate::grid::{check_plate, Grid, Shape};
use crate::work::{check_work, zero_work};
use crate::Done;

/// Writes 1 at each pixel inside a regional maximum and 0 elsewhere.
pub fn regional_maxima(
    plate: &[u16],
    width: u32,
    height: u32,
    greatest: u32,
    connectivity: u32,
    marks: &mut [u16],
    work: &mut [u32],
) -> Done {
    let shape = Shape::of([width, height, greatest, connectivity]);
    let grid = match check_marks(plate, shape, marks, work) {
        Ok(grid) => grid,
        Err(refusal) => return Done { refusal },
    };
    marks[..grid.pixels()].fill(0);
    for zone in maxima_of(&grid, plate) {
        for p in zone {
            marks[p] = 1;
        }
    }
    zero_work(work, grid.pixels());
    Done::default()
}

/// The conditions of marking maxima: 1, 2, 29, 3, 28, 5, 6.
fn check_marks(plate: &[u16], shape: Shape, marks: &[u16], work: &[u32]) -> Result<Grid, u32> {
    let grid = check_plate(plate, shape)?;
    if marks.len() < grid.pixels() {
        return Err(5);
    }
    check_work(work, grid.pixels())?;
    Ok(grid)
}

/// The regional maxima, each as its pixels.
pub fn maxima_of(grid: &Grid, plate: &[u16]) -> Vec<Vec<usize>> {
    let mut zones = grid.flat_zones(plate);
    zones.retain(|zone| is_maximum(grid, plate, zone));
    zones
}

/// Are all outside neighbours of this flat zone strictly darker?
fn is_maximum(grid: &Grid, plate: &[u16], zone: &[usize]) -> bool {
    let grey = plate[zone[0]];
    zone.iter().all(|&p| {
        grid.neighbours(p)
            .filter(|q| zone.binary_search(q).is_err())
            .all(|q| plate[q] < grey)
    })
}
