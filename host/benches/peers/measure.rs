//! Times of the operations.

use livukoe::{Connectivity, Plate};

use crate::clock;
use crate::operations::{Bench, Worker, AGAINST_PEERS, CLEANINGS, OPERATIONS, WORKERS};

/// The best times of an operation on a picture, by worker.
pub struct Timing {
    pub operation: &'static str,
    pub kind: &'static str,
    pub connectivity: Connectivity,
    pub pixels: usize,
    pub seconds: [f64; 3],
}

/// Cleaning is measured for every connectivity, the other operations for 4.
fn measured(operation: &str, connectivity: Connectivity) -> bool {
    connectivity == Connectivity::Four || CLEANINGS.contains(&operation)
}

/// More runs where they are short.
fn runs(pixels: usize) -> usize {
    match pixels {
        0..=1_100_000 => 9,
        1_100_001..=4_200_000 => 5,
        _ => 3,
    }
}

/// Measures all operations on a plate.
pub fn all(kind: &'static str, plate: &Plate, connectivity: Connectivity) -> Vec<Timing> {
    let mut operations = OPERATIONS.to_vec();
    operations.retain(|operation| measured(operation, connectivity));
    each(kind, plate, connectivity, &operations)
}

/// Measures on a plate what the peers do too.
pub fn peers_work(kind: &'static str, plate: &Plate, connectivity: Connectivity) -> Vec<Timing> {
    each(kind, plate, connectivity, &AGAINST_PEERS)
}

/// Measures some operations on a plate.
fn each(
    kind: &'static str,
    plate: &Plate,
    connectivity: Connectivity,
    operations: &[&'static str],
) -> Vec<Timing> {
    let mut bench = Bench::new(plate, connectivity);
    let pixels = plate.greys().len();
    let operations = operations.iter();
    operations
        .map(|&operation| Timing {
            operation,
            kind,
            connectivity,
            pixels,
            seconds: best_times(
                &mut bench,
                pixels,
                |bench, worker| bench.run(operation, worker),
                |bench| &bench.buffers,
            ),
        })
        .collect()
}

/// Times that are shorter than this are measured over several repetitions.
const SHORT: f64 = 0.002;

/// The workers in turn, so that what disturbs one disturbs all; what they write must be the same.
pub fn best_times<B, A: Clone + PartialEq>(
    bench: &mut B,
    pixels: usize,
    run: impl Fn(&mut B, Worker),
    answer: impl Fn(&B) -> &A,
) -> [f64; 3] {
    let first = clock::seconds(|| run(bench, Worker::Proved));
    let repetitions = (SHORT / first).ceil().clamp(1.0, 1e4);
    let proved = answer(bench).clone();
    let mut best = [f64::MAX; 3];
    for _ in 0..runs(pixels) {
        for (worker, best) in WORKERS.into_iter().zip(&mut best) {
            let seconds = clock::seconds(|| {
                for _ in 0..repetitions as usize {
                    run(bench, worker);
                }
            });
            *best = best.min(seconds / repetitions);
            assert!(proved == *answer(bench), "the answers differ");
        }
    }
    best
}
