//! Ink percentage.

use crate::grid::{any_above, is_greatest};

/// The answer of the ink percentage.
#[derive(Clone, Copy, Debug, Default, PartialEq, Eq)]
pub struct Ink {
    pub refusal: u32,
    pub percentage: u32,
}

/// The ink percentage of a grey of a plate with this greatest grey.
pub fn ink_percentage(grey: u16, greatest: u32) -> Ink {
    match check_ink(grey, greatest) {
        Ok(()) => Ink {
            refusal: 0,
            percentage: nearest_percentage(grey, greatest),
        },
        Err(refusal) => Ink {
            refusal,
            percentage: 0,
        },
    }
}

/// The conditions of the ink percentage: 29, 28.
fn check_ink(grey: u16, greatest: u32) -> Result<(), u32> {
    if !is_greatest(greatest) {
        return Err(29);
    }
    if any_above(&[grey], greatest) {
        return Err(28);
    }
    Ok(())
}

/// The whole number nearest to (M - grey) x 100 / M, of two the greater. All of 100
/// to 0 are tried, and the first of the nearest is kept; the distance is taken M
/// times over, so that it is whole.
fn nearest_percentage(grey: u16, greatest: u32) -> u32 {
    let exact = (i64::from(greatest) - i64::from(grey)) * 100;
    let distance = |percentage: &i64| (percentage * i64::from(greatest) - exact).abs();
    (0i64..=100).rev().min_by_key(distance).unwrap_or(0) as u32
}
