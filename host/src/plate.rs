//! Plates, and the operations on them.

use std::io::{self, Write};

use crate::joint::Joint;
use crate::lent::{self, Image, Node, PlateHead};
use crate::record::Record;
use crate::refusal::Refusal;
use crate::work::{zeroed_nodes, WorkSpace};
use crate::{Connectivity, Side, BYTE_GREATEST, MAX_PIXELS};

/// The most bytes that a pixel has in a plate file.
const BYTES_A_PIXEL: usize = 2;
/// The most bytes of the header of a plate file that is written: "P5" and three numbers of five digits, each with one
/// blank behind it.
const HEADER_BYTES: usize = 21;

/// A grey image: greys row by row from the top left, 0 for full ink to the greatest grey, 1 to 65535, for bare paper.
///
/// A plate may have any numbers; an operation refuses sizes that are beyond the grid or do not fit the greys, a greatest
/// grey that is none, and greys above it.
#[derive(Clone, Debug, PartialEq, Eq)]
pub struct Plate {
    width: u32,
    height: u32,
    greatest: u32,
    greys: Vec<u16>,
}

impl Plate {
    /// A plate of these sizes, with this greatest grey and these greys.
    pub fn new(width: u32, height: u32, greatest: u32, greys: Vec<u16>) -> Plate {
        Plate {
            width,
            height,
            greatest,
            greys,
        }
    }

    /// A plate whose greys are bytes, with the greatest grey 255.
    ///
    /// ```
    /// use livukoe::Plate;
    ///
    /// let plate = Plate::from_bytes(2, 1, &[7, 9]);
    /// assert_eq!(plate, Plate::new(2, 1, 255, vec![7, 9]));
    /// ```
    pub fn from_bytes(width: u32, height: u32, bytes: &[u8]) -> Plate {
        let greys = bytes.iter().map(|&grey| u16::from(grey)).collect();
        Plate::new(width, height, BYTE_GREATEST, greys)
    }

    /// The test plate of a seed, the same on every machine, with the greatest grey 255. A state of 32 bits begins as the
    /// seed. For each pixel, row by row, it is multiplied by 1664525, 1013904223 is added (both wrap), and the grey is its
    /// top eight bits. Where there is no such plate, the refusal is 2.
    ///
    /// ```
    /// use livukoe::{Plate, Refusal};
    ///
    /// let plate = Plate::seeded(0, 2, 2)?;
    /// assert_eq!(plate, Plate::new(2, 2, 255, vec![60, 71, 209, 170]));
    /// assert_eq!(Plate::seeded(0, 2, 0), Err(Refusal::Grid));
    /// # Ok::<(), livukoe::Refusal>(())
    /// ```
    pub fn seeded(seed: u32, width: u32, height: u32) -> Result<Plate, Refusal> {
        let pixels = u64::from(width) * u64::from(height);
        let mut greys = vec![0; pixels.min(MAX_PIXELS as u64) as usize];
        Refusal::check(lent::seeded_plate(seed, width, height, &mut greys))?;
        Ok(Plate::new(width, height, BYTE_GREATEST, greys))
    }

    pub fn width(&self) -> u32 {
        self.width
    }

    pub fn height(&self) -> u32 {
        self.height
    }

    /// The greatest grey that a pixel may have: bare paper.
    pub fn greatest(&self) -> u32 {
        self.greatest
    }

    pub fn greys(&self) -> &[u16] {
        &self.greys
    }

    /// The greys, which are not copied.
    ///
    /// ```
    /// let plate = livukoe::Plate::new(2, 1, 255, vec![7, 9]);
    /// assert_eq!(plate.into_greys(), [7, 9]);
    /// ```
    pub fn into_greys(self) -> Vec<u16> {
        self.greys
    }

    /// Reads a plate file, the binary form of Netpbm's PGM: a byte for each pixel where the greatest grey is up to 255,
    /// else two, the high one first.
    ///
    /// ```
    /// use livukoe::Plate;
    ///
    /// let plate = Plate::from_pgm(b"P5 2 1 255\n\x07\x09")?;
    /// assert_eq!(plate, Plate::new(2, 1, 255, vec![7, 9]));
    /// let plate = Plate::from_pgm(b"P5 2 1 1000\n\x00\x07\x03\xe8")?;
    /// assert_eq!(plate, Plate::new(2, 1, 1000, vec![7, 1000]));
    /// # Ok::<(), livukoe::Refusal>(())
    /// ```
    pub fn from_pgm(file: &[u8]) -> Result<Plate, Refusal> {
        Plate::read(file, lent::read_pgm)
    }

    /// The plate that is read from some bytes of a file.
    pub(crate) fn read(
        file: &[u8],
        reading: impl FnOnce(&[u8], &mut [u16]) -> PlateHead,
    ) -> Result<Plate, Refusal> {
        let mut greys = vec![0; file.len().min(MAX_PIXELS)]; // each pixel has a byte in the file, or two
        let head = reading(file, &mut greys);
        Refusal::check(head.refusal)?;
        greys.truncate(head.width as usize * head.height as usize);
        greys.shrink_to_fit();
        Ok(Plate::new(head.width, head.height, head.greatest, greys))
    }

    /// The plate file of this plate, which reads back as it. It has no comments and no leading zeros, and is the one file
    /// of that form. Where there is none, the refusal is 2, 29, 3 or 28.
    ///
    /// ```
    /// use livukoe::{Plate, Refusal};
    ///
    /// let file = Plate::new(2, 1, 255, vec![7, 9]).to_pgm()?;
    /// assert_eq!(file, b"P5\n2 1\n255\n\x07\x09");
    /// let file = Plate::new(2, 1, 1000, vec![7, 1000]).to_pgm()?;
    /// assert_eq!(file, b"P5\n2 1\n1000\n\x00\x07\x03\xe8");
    /// assert_eq!(Plate::new(2, 1, 8, vec![7, 9]).to_pgm(), Err(Refusal::Grey));
    /// # Ok::<(), livukoe::Refusal>(())
    /// ```
    pub fn to_pgm(&self) -> Result<Vec<u8>, Refusal> {
        let mut file = vec![0; BYTES_A_PIXEL * self.places() + HEADER_BYTES];
        let answer = lent::write_pgm(
            &self.greys,
            self.width,
            self.height,
            self.greatest,
            &mut file,
        );
        Refusal::check(answer.refusal)?;
        file.truncate(answer.length);
        file.shrink_to_fit();
        Ok(file)
    }

    /// Writes [`Plate::to_pgm`]. Nothing is written where there is no such file: the error then holds the [`Refusal`].
    ///
    /// ```
    /// use livukoe::Plate;
    ///
    /// let mut file = Vec::new();
    /// Plate::new(2, 1, 255, vec![7, 9]).write_pgm(&mut file)?;
    /// assert_eq!(file, b"P5\n2 1\n255\n\x07\x09");
    /// let refused = Plate::new(2, 1, 8, vec![7, 9]).write_pgm(&mut file);
    /// assert_eq!(refused.unwrap_err().to_string(), "refused 28: a pixel is above the greatest grey");
    /// # Ok::<(), std::io::Error>(())
    /// ```
    pub fn write_pgm(&self, mut out: impl Write) -> io::Result<()> {
        let refused = |refusal| io::Error::new(io::ErrorKind::InvalidInput, refusal);
        out.write_all(&self.to_pgm().map_err(refused)?)
    }

    /// The plate in a frame of this grey, one pixel wide.
    ///
    /// ```
    /// let framed = livukoe::Plate::new(2, 1, 255, vec![7, 9]).framed(0);
    /// assert_eq!(framed.greys(), [0, 0, 0, 0, 0, 7, 9, 0, 0, 0, 0, 0]);
    /// assert_eq!(framed.unframed().greys(), [7, 9]);
    /// ```
    pub fn framed(&self, grey: u16) -> Plate {
        let line = vec![grey; self.width as usize + 2];
        let rows = self.greys.chunks(self.width.max(1) as usize);
        let rows = rows.flat_map(|row| [&[grey], row, &[grey]].concat());
        let greys = line.iter().copied().chain(rows).chain(line.clone());
        let (width, height) = (self.width.saturating_add(2), self.height.saturating_add(2));
        Plate::new(width, height, self.greatest, greys.collect())
    }

    /// The plate without its first and last row and column.
    pub fn unframed(&self) -> Plate {
        let (width, height) = (self.width.saturating_sub(2), self.height.saturating_sub(2));
        let rows = self.greys.chunks(self.width.max(1) as usize).skip(1);
        let rows = rows.take(height as usize);
        let greys = rows.flat_map(|row| row.iter().copied().skip(1).take(width as usize));
        Plate::new(width, height, self.greatest, greys.collect())
    }

    /// The plate cleaned at a limit: the patches of a side that have fewer pixels are taken away. A patch that reaches
    /// the first or last row or column (the trim edge) stays whatever the limit, since the next sheet shows the
    /// remainder.
    ///
    /// A plate cleaned at one limit and then on the same side at another is the plate cleaned once at the greater of the
    /// two.
    ///
    /// The area opening of the literature has no trim edge. For it clean the plate in a frame, [`Plate::framed`], of 0
    /// for the light side and of the greatest grey for the dark side: only the frame is then on the trim edge, and no
    /// patch inside reaches it.
    ///
    /// ```
    /// use livukoe::{Connectivity, Plate, Side};
    ///
    /// // two light pixels, of which the one in the corner stays
    /// let plate = Plate::new(3, 3, 255, vec![9, 0, 0, 0, 9, 0, 0, 0, 0]);
    /// let clean = plate.clean(Side::Light, Connectivity::Four, 2)?;
    /// assert_eq!(clean.greys(), [9, 0, 0, 0, 0, 0, 0, 0, 0]);
    ///
    /// let again = clean.clean(Side::Light, Connectivity::Four, 1)?;
    /// assert_eq!(again, clean);
    ///
    /// let clean = plate.framed(0).clean(Side::Light, Connectivity::Four, 2)?;
    /// assert_eq!(clean.unframed().greys(), [0; 9]);
    /// # Ok::<(), livukoe::Refusal>(())
    /// ```
    pub fn clean(
        &self,
        side: Side,
        connectivity: Connectivity,
        limit: u32,
    ) -> Result<Plate, Refusal> {
        WorkSpace::new().clean(self, side, connectivity, limit)
    }

    /// The regional maxima: 1 inside one, 0 elsewhere. The marks are a plate with the same greatest grey.
    pub fn regional_maxima(&self, connectivity: Connectivity) -> Result<Plate, Refusal> {
        WorkSpace::new().regional_maxima(self, connectivity)
    }

    /// The nodes of the component tree (max-tree), by level rising, then anchor rising. The first is the whole plate.
    pub fn nodes(&self, connectivity: Connectivity) -> Result<Vec<Node>, Refusal> {
        WorkSpace::new().nodes(self, connectivity)
    }

    /// The record of this plate with a connectivity, in the new form.
    pub fn record(&self, connectivity: Connectivity) -> Result<Record, Refusal> {
        WorkSpace::new().record(self, connectivity)
    }

    /// The record of this plate, its cut at a limit and its size list, by one call.
    pub fn record_cut_sizes(
        &self,
        connectivity: Connectivity,
        limit: u32,
    ) -> Result<Joint, Refusal> {
        WorkSpace::new().record_cut_sizes(self, connectivity, limit)
    }

    fn image(&self, connectivity: Connectivity) -> Image<'_> {
        Image {
            greys: &self.greys,
            width: self.width,
            height: self.height,
            greatest: self.greatest,
            connectivity: connectivity.number(),
        }
    }

    /// How many places an answer on this plate has, one for each pixel.
    fn places(&self) -> usize {
        self.greys.len().min(MAX_PIXELS)
    }
}

/// The operations on plates.
impl WorkSpace {
    /// See [`Plate::clean`].
    pub fn clean(
        &mut self,
        plate: &Plate,
        side: Side,
        connectivity: Connectivity,
        limit: u32,
    ) -> Result<Plate, Refusal> {
        self.answered(plate, connectivity, |image, out, work| {
            lent::clean(side.number(), image, limit, out, work)
        })
    }

    /// See [`Plate::regional_maxima`].
    pub fn regional_maxima(
        &mut self,
        plate: &Plate,
        connectivity: Connectivity,
    ) -> Result<Plate, Refusal> {
        self.answered(plate, connectivity, |image, out, work| {
            lent::regional_maxima(image, out, work)
        })
    }

    /// See [`Plate::nodes`].
    pub fn nodes(
        &mut self,
        plate: &Plate,
        connectivity: Connectivity,
    ) -> Result<Vec<Node>, Refusal> {
        let places = plate.places(); // there are at most as many nodes
        let mut nodes = zeroed_nodes(places);
        let image = plate.image(connectivity);
        let answer = lent::node_entries(image, &mut nodes, self.lend(places));
        Refusal::check(answer.refusal)?;
        nodes.truncate(answer.count as usize);
        nodes.shrink_to_fit();
        Ok(nodes)
    }

    /// See [`Plate::record`].
    pub fn record(&mut self, plate: &Plate, connectivity: Connectivity) -> Result<Record, Refusal> {
        let places = plate.places();
        Record::of(plate.image(connectivity), places, self.lend(places))
    }

    /// See [`Plate::record_cut_sizes`].
    pub fn record_cut_sizes(
        &mut self,
        plate: &Plate,
        connectivity: Connectivity,
        limit: u32,
    ) -> Result<Joint, Refusal> {
        let places = plate.places();
        Joint::of(plate.image(connectivity), limit, places, self.lend(places))
    }

    /// The plate of a plate's size that an operation writes.
    fn answered(
        &mut self,
        plate: &Plate,
        connectivity: Connectivity,
        operation: impl FnOnce(Image, &mut [u16], &mut [u32]) -> u32,
    ) -> Result<Plate, Refusal> {
        let (image, places) = (plate.image(connectivity), plate.places());
        let mut out = vec![0; places];
        Refusal::check(operation(image, &mut out, self.lend(places)))?;
        Ok(Plate::new(plate.width, plate.height, plate.greatest, out))
    }
}
