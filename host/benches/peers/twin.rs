//! The algorithm of the proved functions in plain Rust: the same columns of the same work space, the same passes.
//! `CHECKED` says whether an index is checked, as Rust does it by itself, or not, as in the proved code.

use std::ops::{Index, IndexMut};

use livukoe::lent::{Image, Node, NodeColumns};
use livukoe::Side;

use crate::{twin_flood, twin_numbering, twin_ranks};

/// While a tree is built, the low half of a grey's entry is its level.
pub const HALF: u32 = 65_536;

/// Numbers, by a checked index or not.
pub struct Cells<'a, N, const CHECKED: bool>(pub &'a mut [N]);

impl<N, const CHECKED: bool> Index<usize> for Cells<'_, N, CHECKED> {
    type Output = N;

    fn index(&self, i: usize) -> &N {
        if CHECKED {
            &self.0[i]
        } else {
            // SAFETY: the algorithm keeps within its columns and tables, which the tests with CHECKED show
            unsafe { self.0.get_unchecked(i) }
        }
    }
}

impl<N, const CHECKED: bool> IndexMut<usize> for Cells<'_, N, CHECKED> {
    fn index_mut(&mut self, i: usize) -> &mut N {
        if CHECKED {
            &mut self.0[i]
        } else {
            // SAFETY: as above
            unsafe { self.0.get_unchecked_mut(i) }
        }
    }
}

pub type Column<'a, const CHECKED: bool> = Cells<'a, u32, CHECKED>;

/// The columns of the work space once the plate is flooded. Some have a second use once the first is over.
pub struct Columns<'a, const CHECKED: bool> {
    pub grey: Column<'a, CHECKED>,
    pub own: Column<'a, CHECKED>,
    pub anchor: Column<'a, CHECKED>,
    /// The parent by node in the order of flooding; then each node's level.
    pub flood_parent: Column<'a, CHECKED>,
    /// The area by node in the order of flooding; then the number by such a node; then each node's value.
    pub flood_area: Column<'a, CHECKED>,
    pub parent: Column<'a, CHECKED>,
    /// By level, the number that its next node gets; then what is held against the limit by node, its attribute.
    pub attribute: Column<'a, CHECKED>,
    pub area: Column<'a, CHECKED>,
}

impl<'a, const CHECKED: bool> Columns<'a, CHECKED> {
    pub fn of(work: &'a mut [u32], pixels: usize) -> Columns<'a, CHECKED> {
        let mut columns = work.chunks_exact_mut(pixels);
        let mut next = || Cells(columns.next().expect("eight columns"));
        Columns {
            grey: next(),
            own: next(),
            anchor: next(),
            flood_parent: next(),
            flood_area: next(),
            parent: next(),
            attribute: next(),
            area: next(),
        }
    }
}

/// The sum of the entries; each entry becomes the sum of those before it.
pub fn offsets(table: &mut [u32]) -> usize {
    let mut sum = 0;
    for entry in table {
        let count = *entry;
        *entry = sum;
        sum += count;
    }
    sum as usize
}

/// The component tree of the greys in the work space, none above the greatest; the number of nodes.
pub fn build<const CHECKED: bool>(
    work: &mut [u32],
    width: u32,
    height: u32,
    greatest: u32,
    connectivity: u32,
) -> usize {
    let pixels = width as usize * height as usize;
    let levels = twin_ranks::rank_levels::<CHECKED>(&mut work[..pixels], greatest);
    twin_flood::flood::<CHECKED>(work, width, height, levels, connectivity);
    let mut columns = Columns::<CHECKED>::of(work, pixels);
    let count = twin_numbering::number(&mut columns, levels);
    twin_ranks::restore_greys(columns.grey.0, greatest);
    twin_numbering::set_levels(&mut columns, count);
    count
}

/// The component tree of a plate, or of its negative; the number of nodes.
pub fn plate_tree<const CHECKED: bool>(image: Image, negated: bool, work: &mut [u32]) -> usize {
    let Image {
        greys,
        width,
        height,
        greatest,
        connectivity,
    } = image;
    let fits = |&grey: &u16| u32::from(grey) <= greatest;
    assert!(greys.iter().all(fits), "the plate is accepted");
    for (copy, &grey) in work.iter_mut().zip(greys) {
        let grey = u32::from(grey);
        *copy = if negated { greatest - grey } else { grey };
    }
    build::<CHECKED>(work, width, height, greatest, connectivity)
}

/// Sets the work space to zero.
pub fn clear(work: &mut [u32], pixels: usize) {
    work[..8 * pixels].fill(0);
}

/// Writes the value of each pixel's own node, or its negative where a greatest grey is given.
pub fn write_values<const CHECKED: bool>(
    work: &mut [u32],
    pixels: usize,
    negated_by: Option<u32>,
    out: &mut [u16],
) {
    let columns = Columns::<CHECKED>::of(work, pixels);
    for (out, &own) in out.iter_mut().zip(columns.own.0.iter()) {
        let value = columns.flood_area[own as usize];
        *out = negated_by.map_or(value, |greatest| greatest - value) as u16;
    }
}

/// Gives each node its attribute: all the pixels where it reaches the trim edge, else its area. The pixels of the edge mark
/// their own nodes, and from the last node to the first each hands its mark to its parent.
pub fn put_attributes<const CHECKED: bool>(
    work: &mut [u32],
    width: u32,
    height: u32,
    count: usize,
) {
    let (width, height) = (width as usize, height as usize);
    let pixels = width * height;
    let mut columns = Columns::<CHECKED>::of(work, pixels);
    let (nodes, areas) = (&mut columns.attribute.0[..count], &columns.area.0[..count]);
    nodes.copy_from_slice(areas);
    for x in 0..width {
        columns.attribute[columns.own[x] as usize] = pixels as u32;
        columns.attribute[columns.own[pixels - width + x] as usize] = pixels as u32;
    }
    for y in 0..height {
        columns.attribute[columns.own[y * width] as usize] = pixels as u32;
        columns.attribute[columns.own[y * width + width - 1] as usize] = pixels as u32;
    }
    for v in (1..count).rev() {
        if columns.attribute[v] as usize == pixels {
            columns.attribute[columns.parent[v] as usize] = pixels as u32;
        }
    }
}

/// Gives each node its value in the cut at the limit: its level, or its parent's value where its attribute is below it.
pub fn cut_values<const CHECKED: bool>(work: &mut [u32], pixels: usize, count: usize, limit: u32) {
    let mut columns = Columns::<CHECKED>::of(work, pixels);
    for v in 0..count {
        columns.flood_area[v] = if limit <= columns.attribute[v] {
            columns.flood_parent[v]
        } else {
            columns.flood_area[columns.parent[v] as usize]
        };
    }
}

pub fn clean<const CHECKED: bool>(
    side: Side,
    image: Image,
    limit: u32,
    out: &mut [u16],
    work: &mut [u32],
) {
    let pixels = image.greys.len();
    let negated_by = (side == Side::Dark).then_some(image.greatest);
    let count = plate_tree::<CHECKED>(image, negated_by.is_some(), work);
    put_attributes::<CHECKED>(work, image.width, image.height, count);
    cut_values::<CHECKED>(work, pixels, count, limit);
    write_values::<CHECKED>(work, pixels, negated_by, out);
    clear(work, pixels);
}

pub fn regional_maxima<const CHECKED: bool>(image: Image, out: &mut [u16], work: &mut [u32]) {
    let pixels = image.greys.len();
    let count = plate_tree::<CHECKED>(image, false, work);
    let mut columns = Columns::<CHECKED>::of(work, pixels);
    columns.flood_area.0[..count].fill(1);
    for v in 1..count {
        columns.flood_area[columns.parent[v] as usize] = 0;
    }
    write_values::<CHECKED>(work, pixels, None, out);
    clear(work, pixels);
}

pub fn node_list<const CHECKED: bool>(image: Image, out: NodeColumns, work: &mut [u32]) {
    let pixels = image.greys.len();
    let count = plate_tree::<CHECKED>(image, false, work);
    let columns = Columns::<CHECKED>::of(work, pixels);
    out.levels[..count].copy_from_slice(&columns.flood_parent.0[..count]);
    out.parents[..count].copy_from_slice(&columns.parent.0[..count]);
    out.areas[..count].copy_from_slice(&columns.area.0[..count]);
    out.anchors[..count].copy_from_slice(&columns.anchor.0[..count]);
    clear(work, pixels);
}

pub fn node_entries<const CHECKED: bool>(image: Image, list: &mut [Node], work: &mut [u32]) {
    let pixels = image.greys.len();
    let count = plate_tree::<CHECKED>(image, false, work);
    let columns = Columns::<CHECKED>::of(work, pixels);
    for (i, node) in list[..count].iter_mut().enumerate() {
        *node = Node {
            level: columns.flood_parent[i],
            parent: columns.parent[i],
            area: columns.area[i],
            anchor: columns.anchor[i],
        };
    }
    clear(work, pixels);
}
