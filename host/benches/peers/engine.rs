//! The engine on pictures of 16-bit greys: the component tree in the work space, proved and in plain Rust.

use std::hint::black_box;

use livukoe::lent::Image;
use livukoe::{work_space, Connectivity, Plate};

use crate::measure::{best_times, Timing};
use crate::operations::Worker;
use crate::twin;

/// The kinds of connectivity that are measured.
pub const CONNECTIVITIES: [Connectivity; 2] = [Connectivity::Four, Connectivity::Eight];

#[link(name = "test_tree", kind = "static")]
extern "C" {
    /// The tree in the work space; the number of its nodes, 0 where the plate is not accepted.
    fn livukoe_test_tree(
        image: *const u16,
        image_length: usize,
        width: u32,
        height: u32,
        greatest: u32,
        connectivity: u32,
        work: *mut u32,
        work_length: usize,
    ) -> u32;
}

/// A picture, and its tree.
struct Bench<'a> {
    image: Image<'a>,
    tree: Tree,
}

/// The number of nodes, and the work space, in which the tree stands.
#[derive(Clone, PartialEq)]
struct Tree {
    count: usize,
    work: Vec<u32>,
}

impl Bench<'_> {
    fn run(&mut self, worker: Worker) {
        self.tree.count = match worker {
            Worker::Proved => self.run_proved(),
            Worker::Plain => self.run_twin::<true>(),
            Worker::Unchecked => self.run_twin::<false>(),
        };
    }

    fn run_proved(&mut self) -> usize {
        let (image, work) = (self.image, &mut self.tree.work);
        // SAFETY: each pointer is to a slice of that length, and the two do not overlap
        let count = unsafe {
            livukoe_test_tree(
                image.greys.as_ptr(),
                image.greys.len(),
                image.width,
                image.height,
                image.greatest,
                image.connectivity,
                work.as_mut_ptr(),
                work.len(),
            )
        };
        assert_ne!(count, 0, "the plate is accepted");
        count as usize
    }

    fn run_twin<const CHECKED: bool>(&mut self) -> usize {
        let image = black_box(self.image); // so that the test of the greys is made
        twin::plate_tree::<CHECKED>(image, false, &mut self.tree.work)
    }
}

/// Measures the tree of a picture.
pub fn measure(kind: &'static str, plate: &Plate, connectivity: Connectivity) -> Timing {
    let pixels = plate.greys().len();
    let mut work = work_space(pixels);
    work.fill(1);
    let mut bench = Bench {
        image: Image {
            greys: plate.greys(),
            width: plate.width(),
            height: plate.height(),
            greatest: plate.greatest(),
            connectivity: connectivity.number(),
        },
        tree: Tree { count: 0, work },
    };
    Timing {
        operation: "tree",
        kind,
        connectivity,
        pixels,
        seconds: best_times(&mut bench, pixels, Bench::run, |bench| &bench.tree),
    }
}
