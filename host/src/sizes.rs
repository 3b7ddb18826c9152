//! The size list (pattern spectrum) of a plate.

use std::fmt;

use crate::lent::{self, SizeHead};
use crate::refusal::Refusal;

/// How many nodes off the trim edge have each area, and how much grey is lost when the limit passes it. The trim edge is
/// the first and last row and column; what reaches it is never lost.
///
/// All losses, the grey that is held and the darkest grey times the pixels make the plate's total grey:
///
/// ```
/// use livukoe::{Connectivity, Plate};
///
/// let plate = Plate::new(4, 3, 255, vec![10, 10, 10, 10, 10, 50, 30, 10, 10, 10, 10, 90]);
/// let list = plate.record(Connectivity::Four)?.sizes()?;
/// let lost: u64 = list.sizes().map(|size| size.loss).sum();
/// assert_eq!((lost, list.held(), list.darkest()), (60, 80, 10)); // of 60 + 80 + 10 x 12
/// # Ok::<(), livukoe::Refusal>(())
/// ```
///
/// Its `Display` is the text of the program sizelist.
#[derive(Clone, Debug, PartialEq, Eq)]
pub struct SizeList {
    head: SizeHead,
    counts: Vec<u32>,
    losses: Vec<u64>,
}

/// One area of a size list.
#[derive(Clone, Copy, Debug, PartialEq, Eq)]
pub struct Size {
    pub area: usize,
    /// The number of nodes of this area that hold no pixel of the trim edge.
    pub count: u32,
    /// The sum over the pixels of the cut at this area minus the cut at the next.
    pub loss: u64,
}

impl SizeList {
    pub(crate) fn of(record: &[u8], pixels: usize, work: &mut [u32]) -> Result<SizeList, Refusal> {
        let (mut counts, mut losses) = SizeList::tables(pixels);
        let head = lent::size_list(record, &mut counts, &mut losses, work);
        Refusal::check(head.refusal)?;
        Ok(SizeList::new(head, counts, losses))
    }

    /// The tables for a plate of so many pixels: a place for each area but that of the whole.
    pub(crate) fn tables(pixels: usize) -> (Vec<u32>, Vec<u64>) {
        let places = pixels.saturating_sub(1);
        (vec![0; places], vec![0; places])
    }

    pub(crate) fn new(head: SizeHead, counts: Vec<u32>, losses: Vec<u64>) -> SizeList {
        SizeList {
            head,
            counts,
            losses,
        }
    }

    /// The number of nodes of the plate, with those that reach the trim edge.
    pub fn nodes(&self) -> u32 {
        self.head.nodes
    }

    /// The darkest grey of the plate.
    pub fn darkest(&self) -> u16 {
        self.head.darkest as u16
    }

    /// The greatest grey that a pixel of the plate may have.
    pub fn greatest(&self) -> u32 {
        self.head.greatest
    }

    /// The grey that stays at every limit, above the darkest: the total grey of the cut at the full limit, which is the
    /// number of pixels, less the darkest grey times the pixels.
    pub fn held(&self) -> u64 {
        self.head.held
    }

    /// The areas that some node off the trim edge has, rising.
    pub fn sizes(&self) -> impl Iterator<Item = Size> + '_ {
        let tables = self.counts.iter().zip(&self.losses);
        tables
            .enumerate()
            .filter(|(_, (&count, _))| count > 0)
            .map(|(place, (&count, &loss))| Size {
                area: place + 1,
                count,
                loss,
            })
    }
}

impl fmt::Display for SizeList {
    fn fmt(&self, f: &mut fmt::Formatter) -> fmt::Result {
        let SizeHead {
            width,
            height,
            connectivity,
            nodes,
            held,
            ..
        } = self.head;
        writeln!(f, "size {width} {height} {connectivity} {nodes}")?;
        for Size { area, count, loss } in self.sizes() {
            writeln!(f, "{area} {count} {loss}")?;
        }
        writeln!(f, "held {held}")?;
        let ink = lent::ink_percentage(self.darkest(), self.greatest()).percentage;
        writeln!(f, "rest {} {ink}", self.darkest())
    }
}
