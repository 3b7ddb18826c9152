//! Test plates from a seed against the second program: sizes right and wrong, short and long outputs, the largest plates,
//! and their files read back.

mod common;

use common::{Chance, Seen};
use livukoe::{lent, Plate, Refusal};

const CASES: u64 = 100_000;

/// Generates a plate into an output that is not always long enough.
fn compare(chance: &mut Chance, seed: u32, width: u32, height: u32) -> u32 {
    let pixels = u64::from(width) * u64::from(height);
    let mut out = chance.buffer(pixels.min(1_000) as usize);
    let mut out2 = out.clone();
    let refusal = lent::seeded_plate(seed, width, height, &mut out);
    let wanted = reference::seeded_plate(seed, width, height, &mut out2);
    assert_eq!(refusal, wanted.refusal, "{seed}, {width} x {height}");
    assert_eq!(out, out2, "{seed}, {width} x {height}");
    refusal
}

#[test]
fn by_chance() {
    let (mut chance, mut seen) = (Chance::new(31), Seen::default());
    for _ in 0..CASES {
        let seed = chance.next() as u32;
        let mut extent = || match chance.below(16) {
            0 => chance.pick(&[0, 32_767, 32_768, 32_769, 65_536, u32::MAX]),
            _ => 1 + chance.below(12) as u32,
        };
        let (width, height) = (extent(), extent());
        seen.note(compare(&mut chance, seed, width, height));
    }
    seen.assert_all(&[0, 2, 5]);
}

/// Powers of two, the numbers below them, and what is left of the greatest seed without one.
#[test]
fn seeds() {
    let mut chance = Chance::new(32);
    for bit in 0..32 {
        for seed in [1 << bit, (1 << bit) - 1, u32::MAX - (1 << bit)] {
            compare(&mut chance, seed, 5, 3);
        }
    }
}

/// However its pixels are laid in rows, a seed has the greys that the second program gives it.
#[test]
fn the_largest_plates() {
    let mut wanted = vec![0; 4096 * 4096];
    assert_eq!(
        reference::seeded_plate(9, 4096, 4096, &mut wanted).refusal,
        0
    );
    for (width, height) in [(4096, 4096), (32_768, 512), (512, 32_768)] {
        let plate = Plate::seeded(9, width, height).expect("a plate");
        assert!(plate.greys() == wanted);
        let file = plate.to_pgm().expect("its file");
        assert!(Plate::from_pgm(&file) == Ok(plate));
    }
}

/// Through the safe wrapper, also with sizes whose product is beyond 32 bits.
#[test]
fn beyond_the_grid() {
    const MOST: u32 = u32::MAX;
    for (width, height) in [
        (0, 0),
        (0, 1),
        (1, 0),
        (32_769, 1),
        (1, 32_769),
        (4096, 4097),
        (65_536, 65_536),
        (MOST, 1),
        (MOST, MOST),
    ] {
        assert_eq!(Plate::seeded(1, width, height), Err(Refusal::Grid));
    }
}
