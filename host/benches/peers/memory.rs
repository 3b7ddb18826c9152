//! What memory alone takes: no operation on a plate can do without it.

use livukoe::pictures::{next, SEED};
use livukoe::work_space;

use crate::clock;

/// The best times, in seconds, over the work space of so many pixels.
pub struct Memory {
    pub pixels: usize,
    /// Setting the work space to zero.
    pub clear: f64,
    /// A read for each pixel, by chance, in one column of it.
    pub reads: f64,
    /// The same where each read says where the next is.
    pub chain: f64,
}

const RUNS: usize = 3;

/// Measures the work space of so many pixels.
pub fn measure(pixels: usize) -> Memory {
    let mut space = work_space(pixels);
    let (places, rest) = space.split_at_mut(pixels);
    cycle(places);
    let reads = best(|| places.iter().map(|&p| u64::from(rest[p as usize])).sum());
    let chain = best(|| {
        let mut at = 0;
        for _ in 0..pixels {
            at = places[at] as usize;
        }
        at as u64
    });
    let clear = best(|| {
        space.fill(0);
        u64::from(space[pixels / 2])
    });
    Memory {
        pixels,
        clear,
        reads,
        chain,
    }
}

/// Makes each entry the index of another, so that all lie on one cycle (Sattolo's shuffle).
fn cycle(places: &mut [u32]) {
    let mut state = SEED;
    for (i, place) in places.iter_mut().enumerate() {
        *place = i as u32;
    }
    for i in (1..places.len()).rev() {
        places.swap(i, next(&mut state) as usize % i);
    }
}

fn best(mut work: impl FnMut() -> u64) -> f64 {
    let seconds = (0..RUNS).map(|_| {
        clock::seconds(|| {
            std::hint::black_box(work());
        })
    });
    seconds.fold(f64::MAX, f64::min)
}
