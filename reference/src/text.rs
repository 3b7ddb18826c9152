//! What the program sizelist prints.

use crate::grid::Grid;
use crate::ink::ink_percentage;
use crate::nodes::nodes_of;
use crate::pgm::read_pgm;
use crate::sizes::sizes_of;

/// The greatest input, in bytes.
const INPUT_BYTES: usize = 4_096;
/// The greatest plate, in pixels.
const MOST_PIXELS: usize = 1_024;
/// The connectivity that the program uses.
const CONNECTIVITY: u32 = 4;

/// The text that sizelist prints for its standard input.
pub fn sizelist_text(input: &[u8]) -> String {
    if input.len() > INPUT_BYTES {
        return refused_text(6);
    }
    let mut greys = [0u16; MOST_PIXELS];
    let head = read_pgm(input, &mut greys);
    if head.refusal != 0 {
        return refused_text(head.refusal);
    }
    let grid = Grid::new(head.width, head.height, CONNECTIVITY);
    listed_text(&grid, &greys[..grid.pixels()], head.greatest)
}

/// The text for a refusal.
fn refused_text(refusal: u32) -> String {
    format!("refused {refusal}\n")
}

/// The text for a plate.
fn listed_text(grid: &Grid, plate: &[u16], greatest: u32) -> String {
    let nodes = nodes_of(grid, plate);
    let sizes = sizes_of(grid, plate, &nodes);
    let mut text = format!(
        "size {} {} {} {}\n",
        grid.width,
        grid.height,
        grid.connectivity,
        nodes.len()
    );
    for (i, (count, lost)) in sizes.counts.iter().zip(&sizes.losses).enumerate() {
        if *count > 0 {
            text += &format!("{} {} {}\n", i + 1, count, lost);
        }
    }
    text += &format!("held {}\n", sizes.held);
    let ink = ink_percentage(sizes.darkest, greatest).percentage;
    text + &format!("rest {} {}\n", sizes.darkest, ink)
}
