//! What the tests share: chance, plates by chance, and buffers that show what was written.

#![allow(dead_code)] // each test uses a part of it

use std::collections::BTreeSet;

use livukoe::lent::Image;
use livukoe::Connectivity;

/// The greatest greys of plates by chance; that of bytes comes more often.
const GREATESTS: [u32; 9] = [1, 2, 200, 255, 255, 255, 256, 1_000, 65_535];

/// Numbers that look like chance, the same in each run (xorshift).
pub struct Chance(u64);

impl Chance {
    pub fn new(seed: u64) -> Chance {
        Chance(seed.wrapping_mul(0x9E37_79B9_7F4A_7C15) | 1)
    }

    pub fn next(&mut self) -> u64 {
        self.0 ^= self.0 << 13;
        self.0 ^= self.0 >> 7;
        self.0 ^= self.0 << 17;
        self.0 >> 11
    }

    /// A number below n.
    pub fn below(&mut self, n: usize) -> usize {
        (self.next() % n as u64) as usize
    }

    pub fn one_in(&mut self, n: usize) -> bool {
        self.below(n) == 0
    }

    pub fn pick<T: Copy>(&mut self, from: &[T]) -> T {
        from[self.below(from.len())]
    }

    /// A length that is n, or a little less, or more.
    pub fn length_near(&mut self, n: usize) -> usize {
        match self.below(8) {
            0 => n.saturating_sub(1),
            1 => n.saturating_sub(self.below(n + 1)),
            2 | 3 => n + 1 + self.below(5),
            _ => n,
        }
    }

    /// A buffer for an answer of n numbers, not always long enough, filled with what is easily told from an answer.
    pub fn buffer<T: TryFrom<u64>>(&mut self, n: usize) -> Vec<T> {
        (0..self.length_near(n)).map(|_| self.grey(256)).collect()
    }

    fn grey<T: TryFrom<u64>>(&mut self, greys: u64) -> T {
        T::try_from(self.next() % greys).unwrap_or_else(|_| unreachable!("every type holds a byte"))
    }

    /// A small plate of few greys, so that patches nest and meet. Width and height are at most the extent.
    pub fn plate(&mut self, extent: usize) -> Plate {
        let (width, height) = (1 + self.below(extent), 1 + self.below(extent));
        let greatest = self.pick(&GREATESTS);
        let most = greatest as usize;
        let greys = self.pick(&[1, 2, 3, 5, most + 1]);
        let base = self.pick(&[0, 1, 7, most]);
        let base = base.min((most + 1).saturating_sub(greys));
        let plate = (0..width * height)
            .map(|_| (base + self.below(greys)).min(most) as u16)
            .collect();
        Plate {
            width: width as u32,
            height: height as u32,
            greatest,
            connectivity: self.pick(&Connectivity::ALL).number(),
            greys: plate,
        }
    }

    /// A small plate whose numbers are sometimes wrong.
    pub fn job(&mut self, extent: usize) -> Plate {
        let mut plate = self.plate(extent);
        if self.one_in(12) {
            plate.connectivity = self.pick(&[0, 1, 3, 5, 7, 9, 260, 262, u32::MAX]);
        }
        if self.one_in(12) {
            plate.width = self.pick(&[0, plate.width + 1, 32_768, 32_769, 65_536, u32::MAX]);
        }
        if self.one_in(12) {
            plate.height = self.pick(&[0, plate.height + 1, 32_768, 32_769, 65_536, u32::MAX]);
        }
        if self.one_in(12) {
            plate.greatest = self.pick(&[0, 65_536, 65_536 + 255, u32::MAX]);
        }
        if self.one_in(12) {
            let length = self.length_near(plate.greys.len());
            plate.greys.resize(length, 0);
        }
        if self.one_in(12) && plate.greatest < 65_535 && !plate.greys.is_empty() {
            let at = self.below(plate.greys.len());
            let above = plate.greatest as u16 + 1;
            plate.greys[at] = self.pick(&[above, u16::MAX]);
        }
        plate
    }

    /// A limit for so many pixels, not always allowed.
    pub fn limit(&mut self, pixels: usize) -> u32 {
        match self.below(12) {
            0 => self.pick(&[0, pixels as u32 + 1, 65_536 + 1, u32::MAX]),
            1 => pixels as u32,
            _ => 1 + self.below(pixels.max(1)) as u32,
        }
    }

    /// Changes, drops, doubles or adds a few bytes.
    pub fn damage(&mut self, bytes: &mut Vec<u8>) {
        for _ in 0..1 + self.below(2) {
            let at = self.below(bytes.len() + 1);
            let byte = self.pick(&[
                0, 1, 2, 3, 4, 6, 8, 127, 128, 129, 255, b'#', b' ', b'\n', b'5',
            ]);
            match self.below(5) {
                0 => bytes.truncate(at),
                1 => bytes.insert(at, byte),
                2 if at < bytes.len() => drop(bytes.remove(at)),
                3 if at < bytes.len() => bytes[at] ^= 1 << self.below(8),
                _ if at < bytes.len() => bytes[at] = byte,
                _ => bytes.push(byte),
            }
        }
    }
}

/// Which refusals a test has met.
#[derive(Default)]
pub struct Seen(BTreeSet<u32>);

impl Seen {
    pub fn note(&mut self, refusal: u32) {
        self.0.insert(refusal);
    }

    /// A test that misses a refusal shows nothing of it.
    pub fn assert_all(&self, refusals: &[u32]) {
        let wanted: BTreeSet<u32> = refusals.iter().copied().collect();
        assert_eq!(self.0, wanted, "the refusals that were met");
    }
}

/// A plate as the tests have it.
#[derive(Clone, Debug)]
pub struct Plate {
    pub width: u32,
    pub height: u32,
    pub greatest: u32,
    pub connectivity: u32,
    pub greys: Vec<u16>,
}

impl Plate {
    pub fn image(&self) -> Image<'_> {
        Image {
            greys: &self.greys,
            width: self.width,
            height: self.height,
            greatest: self.greatest,
            connectivity: self.connectivity,
        }
    }

    /// Width, height, greatest grey and connectivity.
    pub fn numbers(&self) -> (u32, u32, u32, u32) {
        (self.width, self.height, self.greatest, self.connectivity)
    }

    /// The plate as the wrapper has it.
    pub fn owned(&self) -> livukoe::Plate {
        livukoe::Plate::new(self.width, self.height, self.greatest, self.greys.clone())
    }

    pub fn pixels(&self) -> usize {
        self.greys.len()
    }

    /// A plate of the same numbers with other greys.
    pub fn with(&self, greys: Vec<u16>) -> Plate {
        Plate { greys, ..*self }
    }

    /// The greatest grey minus each grey.
    pub fn negative(&self) -> Plate {
        let greys = self.greys.iter();
        self.with(greys.map(|grey| self.greatest as u16 - grey).collect())
    }

    /// The pixels as a plate file has them, of a plate whose numbers are right.
    pub fn raster(&self) -> Vec<u8> {
        let depth = if self.greatest < 256 { 1 } else { 2 };
        let mut file = self.file();
        file.split_off(file.len() - depth * self.pixels())
    }

    /// The plate file of a plate whose numbers are right.
    pub fn file(&self) -> Vec<u8> {
        self.owned().to_pgm().expect("a file")
    }

    /// The bytes that the second program would write, also where it refuses to.
    pub fn file_by_reference(&self) -> Vec<u8> {
        let (width, height, greatest, _) = self.numbers();
        reference::written::file_of(&self.greys, width, height, greatest)
    }

    /// The second program's writing of the plate file.
    pub fn write_by_reference(&self, out: &mut [u8]) -> reference::FileLength {
        let (width, height, greatest, _) = self.numbers();
        reference::write_pgm(&self.greys, width, height, greatest, out)
    }
}
