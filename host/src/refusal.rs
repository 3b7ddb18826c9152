//! Refusals, in words.

use std::error::Error;
use std::fmt;
use std::str::FromStr;

/// Why an operation was refused. The discriminants are the numbers of the refusals.
///
/// ```
/// use livukoe::Refusal;
///
/// assert_eq!(Refusal::try_from(4), Ok(Refusal::Limit));
/// assert_eq!("12".parse(), Ok(Refusal::FileGreatest));
/// assert!(Refusal::try_from(13).is_err());
/// ```
#[derive(Clone, Copy, Debug, PartialEq, Eq, Hash)]
#[non_exhaustive]
pub enum Refusal {
    Connectivity = 1,
    Grid = 2,
    PlateLength = 3,
    Limit = 4,
    OutputShort = 5,
    WorkShort = 6,
    Letters = 10,
    Header = 11,
    FileGreatest = 12,
    RasterShort = 14,
    RasterLong = 15,
    FieldUnended = 20,
    FieldForm = 21,
    FieldRange = 22,
    RecordLong = 23,
    NotCanonical = 24,
    PlateNumber = 25,
    Side = 26,
    Grey = 28,
    Greatest = 29,
    NoOldForm = 30,
}

/// Each refusal with what it means.
const MEANINGS: [(Refusal, &str); 21] = [
    (Refusal::Connectivity, "the connectivity is not 4, 6 or 8"),
    (
        Refusal::Grid,
        "the width or the height is not from 1 to 32768, or there are more than 16777216 pixels",
    ),
    (
        Refusal::PlateLength,
        "the number of greys is not the width times the height",
    ),
    (
        Refusal::Limit,
        "the limit is 0 or above the number of pixels",
    ),
    (
        Refusal::OutputShort,
        "an output is too short for the answer",
    ),
    (
        Refusal::WorkShort,
        "the work space has fewer than 8 numbers for each pixel",
    ),
    (Refusal::Letters, "the plate file does not begin with P5"),
    (
        Refusal::Header,
        "the plate file's header lacks a number or a gap, or has one that is malformed",
    ),
    (
        Refusal::FileGreatest,
        "the plate file's greatest grey is not from 1 to 65535",
    ),
    (
        Refusal::RasterShort,
        "the plate file ends before its last pixel",
    ),
    (
        Refusal::RasterLong,
        "the plate file has bytes behind its last pixel",
    ),
    (Refusal::FieldUnended, "the record ends inside a field"),
    (
        Refusal::FieldForm,
        "a field of the record is not in its shortest form, or is too large",
    ),
    (
        Refusal::FieldRange,
        "a field of the record is outside its range",
    ),
    (
        Refusal::RecordLong,
        "the record has bytes behind its last field",
    ),
    (
        Refusal::NotCanonical,
        "the record is not the one that its plate has",
    ),
    (
        Refusal::PlateNumber,
        "the number of the plate is not below the number of plates",
    ),
    (Refusal::Side, "the side is neither 1 (light) nor 2 (dark)"),
    (Refusal::Grey, "a pixel is above the greatest grey"),
    (
        Refusal::Greatest,
        "the greatest grey is not from 1 to 65535",
    ),
    (
        Refusal::NoOldForm,
        "the record's greatest grey is not 255, so it has no old form",
    ),
];

impl Refusal {
    /// The refusal's number.
    pub fn number(self) -> u32 {
        self as u32
    }

    /// What the refusal means.
    pub fn meaning(self) -> &'static str {
        let (_, meaning) = MEANINGS
            .iter()
            .find(|(refusal, _)| *refusal == self)
            .expect("every refusal has a meaning");
        meaning
    }

    /// Nothing for 0, else the refusal with this number.
    ///
    /// # Panics
    ///
    /// Where no operation has a refusal of that number.
    pub(crate) fn check(number: u32) -> Result<(), Refusal> {
        match number {
            0 => Ok(()),
            _ => Err(Refusal::try_from(number).unwrap_or_else(|unknown| panic!("{unknown}"))),
        }
    }
}

/// By its number.
impl TryFrom<u32> for Refusal {
    type Error = UnknownRefusal;

    fn try_from(number: u32) -> Result<Refusal, UnknownRefusal> {
        MEANINGS
            .iter()
            .map(|(refusal, _)| *refusal)
            .find(|refusal| refusal.number() == number)
            .ok_or_else(|| UnknownRefusal(number.to_string()))
    }
}

/// By the digits of its number.
impl FromStr for Refusal {
    type Err = UnknownRefusal;

    fn from_str(text: &str) -> Result<Refusal, UnknownRefusal> {
        let number: u32 = text.parse().map_err(|_| UnknownRefusal(text.to_owned()))?;
        number.try_into()
    }
}

/// What is the number of no refusal.
#[derive(Clone, Debug, PartialEq, Eq)]
pub struct UnknownRefusal(String);

impl fmt::Display for UnknownRefusal {
    fn fmt(&self, f: &mut fmt::Formatter) -> fmt::Result {
        write!(f, "no refusal has the number {:?}", self.0)
    }
}

impl Error for UnknownRefusal {}

impl fmt::Display for Refusal {
    fn fmt(&self, f: &mut fmt::Formatter) -> fmt::Result {
        write!(f, "refused {}: {}", self.number(), self.meaning())
    }
}

impl Error for Refusal {}
