//! Rolls: plate files one after the other.

use std::iter::FusedIterator;

use crate::lent;
use crate::plate::Plate;
use crate::refusal::Refusal;

/// Plate files one after the other, in bytes that are lent. Its plates are counted from 0, and no bytes are a roll of
/// none. The bytes may be damaged: the first faulty plate refuses the whole roll.
///
/// ```
/// use livukoe::{Plate, Refusal, Roll};
///
/// let roll = Roll::from_bytes(b"P5 1 1 255 aP5 1 1 7 \x01");
/// assert_eq!(roll.count(), Ok(2));
/// assert_eq!(roll.plate(1)?, Plate::new(1, 1, 7, vec![1]));
/// assert_eq!(roll.plate(2), Err(Refusal::PlateNumber));
/// assert_eq!(Roll::from_bytes(b"").count(), Ok(0));
/// assert_eq!(Roll::from_bytes(b"P5 1 1 255 a\n").count(), Err(Refusal::Letters));
/// # Ok::<(), livukoe::Refusal>(())
/// ```
#[derive(Clone, Copy, Debug, PartialEq, Eq)]
pub struct Roll<'a> {
    bytes: &'a [u8],
}

impl<'a> Roll<'a> {
    /// A roll that came from elsewhere.
    pub fn from_bytes(bytes: &'a [u8]) -> Roll<'a> {
        Roll { bytes }
    }

    pub fn bytes(&self) -> &'a [u8] {
        self.bytes
    }

    /// The number of plates.
    pub fn count(&self) -> Result<usize, Refusal> {
        let answer = lent::roll_count(self.bytes);
        Refusal::check(answer.refusal)?;
        Ok(answer.count)
    }

    /// The plate of a number, counted from 0. The whole roll is judged at each call; see [`Roll::plates`] for all plates.
    pub fn plate(&self, number: usize) -> Result<Plate, Refusal> {
        Plate::read(self.bytes, |bytes, out| {
            lent::roll_plate(bytes, number, out)
        })
    }

    /// All plates in order, each judged when its turn comes: what precedes a faulty plate is given, then the refusal,
    /// then nothing. No grey is stored until [`PlateFile::plate`] is called.
    ///
    /// ```
    /// use livukoe::{Plate, Refusal, Roll};
    ///
    /// let mut plates = Roll::from_bytes(b"P5 1 1 255 aP5 1 1 7 \x01P5 9").plates();
    /// let second = plates.nth(1).expect("a plate")?;
    /// assert_eq!((second.number, second.at, second.pixels()), (1, 12, 1));
    /// assert_eq!(second.plate()?, Plate::new(1, 1, 7, vec![1]));
    /// assert_eq!(plates.next(), Some(Err(Refusal::Header)));
    /// assert_eq!((plates.number(), plates.at()), (2, 22)); // the faulty one
    /// assert_eq!(plates.next(), None);
    /// # Ok::<(), livukoe::Refusal>(())
    /// ```
    pub fn plates(&self) -> Plates<'a> {
        Plates {
            bytes: self.bytes,
            at: 0,
            number: 0,
            refused: false,
        }
    }
}

/// A sound plate of a roll: its number, where its file lies, and what its header says.
#[derive(Clone, Copy, Debug, PartialEq, Eq)]
#[non_exhaustive]
pub struct PlateFile<'a> {
    /// Counted from 0.
    pub number: usize,
    /// Where it begins: how many bytes of the roll are ahead of it.
    pub at: usize,
    pub width: u32,
    pub height: u32,
    /// The greatest grey that a pixel may have.
    pub greatest: u32,
    /// The bytes of its own file.
    pub bytes: &'a [u8],
}

impl PlateFile<'_> {
    /// The number of pixels.
    pub fn pixels(&self) -> usize {
        self.width as usize * self.height as usize
    }

    /// The plate.
    pub fn plate(&self) -> Result<Plate, Refusal> {
        Plate::from_pgm(self.bytes)
    }
}

/// The plates of a roll from some byte on: [`Roll::plates`].
#[derive(Clone, Debug)]
pub struct Plates<'a> {
    bytes: &'a [u8],
    at: usize,
    number: usize,
    refused: bool,
}

impl Plates<'_> {
    /// The number of the plate that is next, which is that of the plates so far; after a refusal, of the faulty one.
    pub fn number(&self) -> usize {
        self.number
    }

    /// Where the plate of that number begins.
    pub fn at(&self) -> usize {
        self.at
    }
}

impl<'a> Iterator for Plates<'a> {
    type Item = Result<PlateFile<'a>, Refusal>;

    fn next(&mut self) -> Option<Result<PlateFile<'a>, Refusal>> {
        if self.refused || self.at == self.bytes.len() {
            return None;
        }
        let place = lent::plate_at(self.bytes, self.at);
        if let Err(refusal) = Refusal::check(place.refusal) {
            self.refused = true;
            return Some(Err(refusal));
        }
        let plate = PlateFile {
            number: self.number,
            at: self.at,
            width: place.width,
            height: place.height,
            greatest: place.greatest,
            bytes: &self.bytes[self.at..place.end],
        };
        self.number += 1;
        self.at = place.end;
        Some(Ok(plate))
    }
}

impl FusedIterator for Plates<'_> {}
