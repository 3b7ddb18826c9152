//! The grid of a plate: its bounds and those of its greatest grey,
//! its touching pixels, its trim edge, its components.

use std::collections::BTreeSet;

/// The greatest width and the greatest height.
pub const MAX_WIDTH_OR_HEIGHT: u32 = 32_768;
/// The greatest number of pixels.
pub const MAX_PIXELS: u64 = 16_777_216;
/// The greatest number that a plate may have as its greatest grey.
pub const MAX_GREATEST: u32 = 65_535;
/// The connectivities.
pub const CONNECTIVITIES: [u32; 3] = [4, 6, 8];

/// A grid that has passed the checks, with its connectivity.
#[derive(Clone, Copy, Debug, PartialEq, Eq)]
pub struct Grid {
    pub width: usize,
    pub height: usize,
    pub connectivity: u32,
}

/// Is this a connectivity?
pub fn is_connectivity(connectivity: u32) -> bool {
    CONNECTIVITIES.contains(&connectivity)
}

/// Is this a width, or a height, taken alone?
pub fn is_width_or_height(number: u32) -> bool {
    (1..=MAX_WIDTH_OR_HEIGHT).contains(&number)
}

/// Are width, height and their product all within the grid?
pub fn is_size(width: u32, height: u32) -> bool {
    is_width_or_height(width)
        && is_width_or_height(height)
        && u64::from(width) * u64::from(height) <= MAX_PIXELS
}

/// Is this the greatest grey of some plate?
pub fn is_greatest(number: u32) -> bool {
    (1..=MAX_GREATEST).contains(&number)
}

/// Is some pixel above the greatest grey?
pub fn any_above(plate: &[u16], greatest: u32) -> bool {
    plate.iter().any(|&grey| u32::from(grey) > greatest)
}

/// What a call says of its plate besides the greys.
#[derive(Clone, Copy, Debug, PartialEq, Eq)]
pub struct Shape {
    pub width: u32,
    pub height: u32,
    pub greatest: u32,
    pub connectivity: u32,
}

impl Shape {
    /// A shape of these numbers: width, height, greatest grey, connectivity.
    pub fn of([width, height, greatest, connectivity]: [u32; 4]) -> Shape {
        Shape {
            width,
            height,
            greatest,
            connectivity,
        }
    }
}

/// The checks that begin every operation on a plate and its connectivity: 1, 2, 29, 3, 28.
pub fn check_plate(plate: &[u16], shape: Shape) -> Result<Grid, u32> {
    if !is_connectivity(shape.connectivity) {
        return Err(1);
    }
    check_greys(plate, shape.width, shape.height, shape.greatest)?;
    Ok(Grid::new(shape.width, shape.height, shape.connectivity))
}

/// The checks of a plate without its connectivity: 2, 29, 3, 28.
pub fn check_greys(plate: &[u16], width: u32, height: u32, greatest: u32) -> Result<(), u32> {
    if !is_size(width, height) {
        return Err(2);
    }
    if !is_greatest(greatest) {
        return Err(29);
    }
    if plate.len() != (width * height) as usize {
        return Err(3);
    }
    if any_above(plate, greatest) {
        return Err(28);
    }
    Ok(())
}

/// The steps, as rows down and columns right, to the pixels that share an edge,
/// then to the upper left and the lower right, then to the other two that share
/// a corner. The first 4, 6 or 8, as the connectivity says, lead to the pixels
/// that touch.
const STEPS: [(isize, isize); 8] = [
    (-1, 0),
    (0, -1),
    (0, 1),
    (1, 0),
    (-1, -1),
    (1, 1),
    (-1, 1),
    (1, -1),
];

/// Do two pixels of a plate of this width touch?
pub fn touching(width: usize, connectivity: u32, p: usize, q: usize) -> bool {
    let place = |pixel: usize| (pixel / width, pixel % width);
    near(connectivity, place(p), place(q))
}

/// Do the pixels at these two places, a row and a column each, touch?
fn near(connectivity: u32, from: (usize, usize), to: (usize, usize)) -> bool {
    let down = to.0 as isize - from.0 as isize;
    let right = to.1 as isize - from.1 as isize;
    STEPS[..connectivity as usize].contains(&(down, right))
}

impl Grid {
    /// A grid from numbers that have passed the checks.
    pub fn new(width: u32, height: u32, connectivity: u32) -> Grid {
        Grid {
            width: width as usize,
            height: height as usize,
            connectivity,
        }
    }

    /// The number of pixels.
    pub fn pixels(&self) -> usize {
        self.width * self.height
    }

    /// The pixels that touch pixel p.
    pub fn neighbours(&self, p: usize) -> impl Iterator<Item = usize> {
        let grid = *self;
        let (row, column) = (p / grid.width, p % grid.width);
        let last_row = (row + 1).min(grid.height - 1);
        let last_column = (column + 1).min(grid.width - 1);
        (row.saturating_sub(1)..=last_row).flat_map(move |r| {
            (column.saturating_sub(1)..=last_column)
                .filter(move |&c| near(grid.connectivity, (row, column), (r, c)))
                .map(move |c| r * grid.width + c)
        })
    }

    /// Is the pixel on the trim edge, in the first or last row or column?
    pub fn on_trim_edge(&self, p: usize) -> bool {
        let (row, column) = (p / self.width, p % self.width);
        row == 0 || row == self.height - 1 || column == 0 || column == self.width - 1
    }

    /// Does the set hold a pixel of the trim edge?
    pub fn holds_trim_edge(&self, set: &[usize]) -> bool {
        set.iter().any(|&p| self.on_trim_edge(p))
    }

    /// Does the set qualify at a limit: has it at least the limit's pixels, or does
    /// it hold a pixel of the trim edge?
    pub fn qualifies(&self, set: &[usize], limit: usize) -> bool {
        set.len() >= limit || self.holds_trim_edge(set)
    }

    /// Flood fill from a member pixel: its component, pixel numbers rising.
    fn flood(&self, start: usize, member: &dyn Fn(usize) -> bool, seen: &mut [bool]) -> Vec<usize> {
        let mut found = vec![start];
        seen[start] = true;
        let mut next = 0;
        while next < found.len() {
            let p = found[next];
            next += 1;
            for q in self.neighbours(p) {
                if !seen[q] && member(q) {
                    seen[q] = true;
                    found.push(q);
                }
            }
        }
        found.sort_unstable();
        found
    }

    /// The connected components of the set of member pixels.
    pub fn components(&self, member: &dyn Fn(usize) -> bool) -> Vec<Vec<usize>> {
        let mut seen = vec![false; self.pixels()];
        let mut all = Vec::new();
        for p in 0..self.pixels() {
            if !seen[p] && member(p) {
                all.push(self.flood(p, member, &mut seen));
            }
        }
        all
    }

    /// The connected components of "grey at least t".
    pub fn components_at_least(&self, plate: &[u16], t: u16) -> Vec<Vec<usize>> {
        self.components(&|p| plate[p] >= t)
    }

    /// The flat zones: the greatest connected sets of one grey.
    pub fn flat_zones(&self, plate: &[u16]) -> Vec<Vec<usize>> {
        let mut seen = vec![false; self.pixels()];
        let mut zones = Vec::new();
        for p in 0..self.pixels() {
            if !seen[p] {
                zones.push(self.flood(p, &|q| plate[q] == plate[p], &mut seen));
            }
        }
        zones
    }
}

/// The greys that occur in the plate, rising. Any other threshold t gives the
/// same set "grey at least t" as the next grey above it, or the empty set.
pub fn thresholds(plate: &[u16]) -> Vec<u16> {
    let occurring: BTreeSet<u16> = plate.iter().copied().collect();
    occurring.into_iter().collect()
}
