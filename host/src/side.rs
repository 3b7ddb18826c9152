//! The two sides of a plate.

use std::fmt;
use std::str::FromStr;

use crate::refusal::Refusal;

/// Which patches are cleaned away. The discriminants are the numbers of the sides.
///
/// ```
/// use livukoe::{Refusal, Side};
///
/// assert_eq!("dark".parse(), Ok(Side::Dark));
/// assert_eq!(Side::try_from(1), Ok(Side::Light));
/// assert_eq!(Side::try_from(3), Err(Refusal::Side));
/// ```
#[derive(Clone, Copy, Debug, PartialEq, Eq, Hash)]
pub enum Side {
    /// Light patches.
    Light = 1,
    /// Dark patches.
    Dark = 2,
}

impl Side {
    /// Every side, by number rising.
    pub const ALL: [Side; 2] = [Side::Light, Side::Dark];

    /// The side with this number, 1 or 2.
    pub fn from_number(number: u32) -> Option<Side> {
        Side::ALL.into_iter().find(|side| side.number() == number)
    }

    /// The side's number.
    pub fn number(self) -> u32 {
        self as u32
    }

    /// The side's name.
    pub fn name(self) -> &'static str {
        match self {
            Side::Light => "light",
            Side::Dark => "dark",
        }
    }
}

/// By its number; another number is refusal 26.
impl TryFrom<u32> for Side {
    type Error = Refusal;

    fn try_from(number: u32) -> Result<Side, Refusal> {
        Side::from_number(number).ok_or(Refusal::Side)
    }
}

/// By its name or the digit of its number, and nothing else; another text is refusal 26.
impl FromStr for Side {
    type Err = Refusal;

    fn from_str(text: &str) -> Result<Side, Refusal> {
        Side::ALL
            .into_iter()
            .find(|side| side.name() == text || side.number().to_string() == text)
            .ok_or(Refusal::Side)
    }
}

/// Its name.
impl fmt::Display for Side {
    fn fmt(&self, f: &mut fmt::Formatter) -> fmt::Result {
        f.pad(self.name())
    }
}
