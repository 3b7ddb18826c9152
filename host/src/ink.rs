//! The ink percentage.

use crate::lent;
use crate::refusal::Refusal;

/// The ink percentage of a grey of plates with this greatest grey: the whole number nearest to
/// (greatest - grey) x 100 / greatest, halves up.
///
/// ```
/// use livukoe::{ink_percentage, Refusal};
///
/// assert_eq!(ink_percentage(0, 255), Ok(100));
/// assert_eq!(ink_percentage(1, 200), Ok(100)); // 99.5
/// assert_eq!(ink_percentage(201, 200), Err(Refusal::Grey));
/// ```
pub fn ink_percentage(grey: u16, greatest: u32) -> Result<u32, Refusal> {
    let answer = lent::ink_percentage(grey, greatest);
    Refusal::check(answer.refusal)?;
    Ok(answer.percentage)
}
