//! Memory that is lent to the proved functions: work space, and lists that cost only what is written to them.

use std::alloc::{alloc_zeroed, handle_alloc_error, Layout};

use crate::lent::Node;
use crate::MAX_PIXELS;

/// The work space of an operation on so many pixels: eight numbers for each. On Linux it asks for large pages, with which
/// a plate of many pixels is read sooner; where they are refused, nothing else changes.
pub fn work_space(pixels: usize) -> Vec<u32> {
    let mut space = vec![0; 8 * pixels];
    ask_large_pages(&mut space);
    space
}

/// Work space that operations share, one after another. It grows to what the largest plate so far needs.
///
/// The methods of [`Plate`](crate::Plate) and [`Record`](crate::Record) make a work space for each call. Where there are
/// many calls, the same methods of one work space save the time in which its memory is fetched and given back.
///
/// ```
/// use livukoe::{Connectivity, Plate, Side, WorkSpace};
///
/// let mut work = WorkSpace::new();
/// let plate = Plate::new(3, 1, 255, vec![10, 20, 10]);
/// let clean = work.clean(&plate, Side::Light, Connectivity::Four, 2)?;
/// let record = work.record(&clean, Connectivity::Four)?;
/// assert_eq!(work.plate(&record)?, clean);
/// # Ok::<(), livukoe::Refusal>(())
/// ```
#[derive(Clone, Debug, Default)]
pub struct WorkSpace {
    numbers: Vec<u32>,
}

impl WorkSpace {
    /// Work space that holds nothing yet.
    pub fn new() -> WorkSpace {
        WorkSpace::default()
    }

    /// Work space for plates of up to so many pixels.
    pub fn for_pixels(pixels: usize) -> WorkSpace {
        let mut work = WorkSpace::new();
        work.lend(pixels);
        work
    }

    /// For how many pixels there is space without growing.
    pub fn pixels(&self) -> usize {
        self.numbers.len() / 8
    }

    /// The numbers for so many pixels, or for as many as a plate may have: what has more is refused whatever is lent.
    pub(crate) fn lend(&mut self, pixels: usize) -> &mut [u32] {
        let pixels = pixels.min(MAX_PIXELS);
        if self.pixels() < pixels {
            self.numbers = Vec::new(); // given back ahead of what replaces it
            self.numbers = work_space(pixels);
        }
        &mut self.numbers[..8 * pixels]
    }
}

/// So many nodes of zeros. Memory that is not written to is not used.
pub(crate) fn zeroed_nodes(count: usize) -> Vec<Node> {
    let layout = Layout::array::<Node>(count).expect("no more nodes than greys in memory");
    if layout.size() == 0 {
        return Vec::new();
    }
    // SAFETY: the layout is that of a vector of this capacity and its size is not 0; a node is four numbers, for which
    // zero bytes are a value, so that all of its elements are there.
    unsafe {
        let start = alloc_zeroed(layout);
        if start.is_null() {
            handle_alloc_error(layout);
        }
        Vec::from_raw_parts(start.cast(), count, count)
    }
}

#[cfg(target_os = "linux")]
fn ask_large_pages(space: &mut [u32]) {
    use std::ffi::{c_int, c_void};

    extern "C" {
        fn madvise(start: *mut c_void, length: usize, advice: c_int) -> c_int;
    }
    const HUGE_PAGES: c_int = 14;
    const PAGE: usize = 4096;

    let bytes = std::mem::size_of_val(space);
    let start = space.as_mut_ptr().cast::<u8>();
    let ahead = start.align_offset(PAGE);
    if ahead < bytes {
        // SAFETY: the part of the slice from its first whole page on; advice on pages does not change what they hold
        unsafe { madvise(start.add(ahead).cast(), bytes - ahead, HUGE_PAGES) };
    }
}

#[cfg(not(target_os = "linux"))]
fn ask_large_pages(_space: &mut [u32]) {}

#[cfg(test)]
mod tests {
    use super::{work_space, zeroed_nodes};
    use crate::lent::Node;

    #[test]
    fn has_eight_zeros_for_each_pixel() {
        for pixels in [0, 1, 511, 512, 4097, 1 << 20] {
            assert_eq!(work_space(pixels), vec![0; 8 * pixels]);
        }
    }

    #[test]
    fn nodes_of_zeros() {
        for count in [0, 1, 4097] {
            let mut nodes = zeroed_nodes(count);
            assert_eq!(nodes, vec![Node::default(); count]);
            nodes.truncate(count / 2);
            nodes.shrink_to_fit();
            nodes.push(Node::default());
        }
    }
}
