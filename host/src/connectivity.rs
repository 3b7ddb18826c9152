//! The three kinds of connectivity.

use std::fmt;
use std::str::FromStr;

use crate::refusal::Refusal;

/// Which pixels touch a pixel.
///
/// ```
/// use livukoe::{Connectivity, Refusal};
///
/// assert_eq!("8".parse(), Ok(Connectivity::Eight));
/// assert_eq!(Connectivity::try_from(4), Ok(Connectivity::Four));
/// assert_eq!(Connectivity::try_from(6), Ok(Connectivity::Six));
/// assert_eq!(Connectivity::try_from(5), Err(Refusal::Connectivity));
/// ```
#[derive(Clone, Copy, Debug, Default, PartialEq, Eq, Hash)]
#[non_exhaustive]
pub enum Connectivity {
    /// Those to its left and right, above and below it.
    #[default]
    Four,
    /// Those four, the upper left and the lower right.
    Six,
    /// Those four, and all at its corners.
    Eight,
}

impl Connectivity {
    /// Every connectivity, by number of neighbours rising.
    pub const ALL: [Connectivity; 3] = [Connectivity::Four, Connectivity::Six, Connectivity::Eight];

    /// The connectivity with this number of neighbours, 4, 6 or 8.
    pub fn from_number(number: u32) -> Option<Connectivity> {
        Connectivity::ALL
            .into_iter()
            .find(|connectivity| connectivity.number() == number)
    }

    /// The number of neighbours.
    pub fn number(self) -> u32 {
        match self {
            Connectivity::Four => 4,
            Connectivity::Six => 6,
            Connectivity::Eight => 8,
        }
    }
}

/// By the number of neighbours; another number is refusal 1.
impl TryFrom<u32> for Connectivity {
    type Error = Refusal;

    fn try_from(number: u32) -> Result<Connectivity, Refusal> {
        Connectivity::from_number(number).ok_or(Refusal::Connectivity)
    }
}

/// By the digits of the number of neighbours, and nothing else; another text is refusal 1.
impl FromStr for Connectivity {
    type Err = Refusal;

    fn from_str(text: &str) -> Result<Connectivity, Refusal> {
        Connectivity::ALL
            .into_iter()
            .find(|connectivity| connectivity.to_string() == text)
            .ok_or(Refusal::Connectivity)
    }
}

impl fmt::Display for Connectivity {
    fn fmt(&self, f: &mut fmt::Formatter) -> fmt::Result {
        self.number().fmt(f)
    }
}
