//! Records: the canonical description of a plate with its connectivity.

use crate::fields::{self, Fault, Head};
use crate::form::RecordForm;
use crate::lent::{self, Image, RecordHead};
use crate::plate::Plate;
use crate::refusal::Refusal;
use crate::sizes::SizeList;
use crate::work::WorkSpace;

/// The most bytes that a record has: a node has a step (4), a rise (3) and an area (4), a pixel has its own node (4).
const BYTES_A_PIXEL: usize = 15;
/// The fields in front of the new form (1, 1, 3), width (3), height (3), connectivity (1), node count (4), less the step
/// (4) that the root does not have.
const BYTES_AHEAD: usize = 12;
/// How many bytes the new form has more than the old one at most: the greatest grey is 255.
const BYTES_IN_FRONT: usize = 4;

/// The fewest bytes that a record has beside one for each pixel, in the old form: head (4), root level and root area.
const LEAST_BYTES: usize = 6;

/// The bytes of a record. They may be damaged: each operation refuses what is not the record of a plate.
#[derive(Clone, Debug, PartialEq, Eq)]
pub struct Record {
    bytes: Vec<u8>,
}

impl Record {
    /// A record that came from elsewhere.
    pub fn from_bytes(bytes: Vec<u8>) -> Record {
        Record { bytes }
    }

    pub fn bytes(&self) -> &[u8] {
        &self.bytes
    }

    /// The bytes, which are not copied.
    ///
    /// ```
    /// use livukoe::{Connectivity, Plate};
    ///
    /// let record = Plate::new(1, 1, 100, vec![7]).record(Connectivity::Four)?;
    /// assert_eq!(record.into_bytes(), [0, 2, 100, 1, 1, 4, 1, 7, 1, 0]);
    /// # Ok::<(), livukoe::Refusal>(())
    /// ```
    pub fn into_bytes(self) -> Vec<u8> {
        self.bytes
    }

    pub(crate) fn of(image: Image, pixels: usize, work: &mut [u32]) -> Result<Record, Refusal> {
        let mut bytes = vec![0; Record::most_bytes(pixels)];
        let answer = lent::write_record(image, &mut bytes, work);
        Refusal::check(answer.refusal)?;
        Ok(Record::written(bytes, answer.length))
    }

    /// No plate of so many pixels has a longer record.
    pub(crate) fn most_bytes(pixels: usize) -> usize {
        BYTES_AHEAD + BYTES_A_PIXEL * pixels
    }

    /// The record that was written at the front of some bytes.
    pub(crate) fn written(mut bytes: Vec<u8>, length: usize) -> Record {
        bytes.truncate(length);
        bytes.shrink_to_fit();
        Record { bytes }
    }

    /// What the record's first fields say: form, greatest grey, width, height, connectivity and number of nodes. The rest
    /// is not looked at, so that a damaged record may have a head too.
    ///
    /// ```
    /// use livukoe::{Connectivity, Record, RecordForm};
    ///
    /// let head = Record::from_bytes(vec![0, 2, 100, 4, 3, 8, 2]).head()?;
    /// assert_eq!((head.form, head.greatest), (RecordForm::New, 100));
    /// assert_eq!((head.width, head.height, head.nodes), (4, 3, 2));
    /// assert_eq!(head.connectivity, Connectivity::Eight);
    ///
    /// let head = Record::from_bytes(vec![4, 3, 8, 2]).head()?;
    /// assert_eq!((head.form, head.greatest), (RecordForm::Old, 255));
    /// # Ok::<(), livukoe::Refusal>(())
    /// ```
    pub fn head(&self) -> Result<Head, Refusal> {
        fields::head(&self.bytes).map_err(|fault| fault.refusal)
    }

    /// The first field that is unended, malformed or outside its range, for a message that says where a record is
    /// damaged. It is found by a walk of this crate's own; whether a record is one is decided by the operations.
    ///
    /// ```
    /// let fault = livukoe::Record::from_bytes(vec![4, 0]).fault().expect("a fault");
    /// assert_eq!(fault.to_string(), "byte 1: the height is 0; 1 to 32768");
    /// ```
    pub fn fault(&self) -> Option<Fault> {
        fields::length(&self.bytes).err()
    }

    /// How many bytes there are after the last field; none where a field is at fault.
    pub fn left_over(&self) -> usize {
        fields::length(&self.bytes).map_or(0, |length| self.bytes.len() - length)
    }

    /// The plate that the record describes.
    pub fn plate(&self) -> Result<Plate, Refusal> {
        WorkSpace::new().plate(self)
    }

    /// The cut at a limit: the record's plate, cleaned on the light side under its connectivity.
    pub fn cut(&self, limit: u32) -> Result<Plate, Refusal> {
        WorkSpace::new().cut(self, limit)
    }

    /// The record of the same plate in a form. One that is in it already comes back unchanged; only where the greatest
    /// grey is 255 is there an old form.
    ///
    /// ```
    /// use livukoe::{Record, RecordForm, Refusal};
    ///
    /// let old = Record::from_bytes(vec![1, 1, 4, 1, 7, 1, 0]);
    /// let new = old.to_form(RecordForm::New)?;
    /// assert_eq!(new.bytes(), [0, 2, 255, 1, 1, 1, 4, 1, 7, 1, 0]);
    /// assert_eq!(new.to_form(RecordForm::Old)?, old);
    ///
    /// let finer = Record::from_bytes(vec![0, 2, 100, 1, 1, 4, 1, 7, 1, 0]);
    /// assert_eq!(finer.to_form(RecordForm::Old), Err(Refusal::NoOldForm));
    /// # Ok::<(), livukoe::Refusal>(())
    /// ```
    pub fn to_form(&self, form: RecordForm) -> Result<Record, Refusal> {
        WorkSpace::new().to_form(self, form)
    }

    /// The size list (pattern spectrum) of the nodes off the trim edge.
    pub fn sizes(&self) -> Result<SizeList, Refusal> {
        WorkSpace::new().sizes(self)
    }

    /// For how many pixels buffers are lent. A record whose head is at fault is refused without any. One that is too
    /// short for the pixels that it promises has a fault, and is refused ahead of lending it their space.
    fn pixels(&self) -> Result<usize, Refusal> {
        let pixels = self.head().map_or(0, |head| head.pixels());
        if self.bytes.len() < LEAST_BYTES + pixels {
            if let Some(fault) = self.fault() {
                return Err(fault.refusal);
            }
        }
        Ok(pixels)
    }
}

/// The operations on records.
impl WorkSpace {
    /// See [`Record::plate`].
    pub fn plate(&mut self, record: &Record) -> Result<Plate, Refusal> {
        self.plate_of(record, |out, work| {
            lent::read_record(&record.bytes, out, work)
        })
    }

    /// See [`Record::cut`].
    pub fn cut(&mut self, record: &Record, limit: u32) -> Result<Plate, Refusal> {
        self.plate_of(record, |out, work| {
            lent::cut_record(&record.bytes, limit, out, work)
        })
    }

    /// See [`Record::to_form`].
    pub fn to_form(&mut self, record: &Record, form: RecordForm) -> Result<Record, Refusal> {
        let convert = match form {
            RecordForm::Old => lent::record_to_old,
            RecordForm::New => lent::record_to_new,
        };
        let work = self.lend(record.pixels()?);
        let mut bytes = vec![0; record.bytes.len() + BYTES_IN_FRONT];
        let answer = convert(&record.bytes, &mut bytes, work);
        Refusal::check(answer.refusal)?;
        Ok(Record::written(bytes, answer.length))
    }

    /// See [`Record::sizes`].
    pub fn sizes(&mut self, record: &Record) -> Result<SizeList, Refusal> {
        let pixels = record.pixels()?;
        SizeList::of(&record.bytes, pixels, self.lend(pixels))
    }

    /// The plate that an operation on a record writes.
    fn plate_of(
        &mut self,
        record: &Record,
        operation: impl FnOnce(&mut [u16], &mut [u32]) -> RecordHead,
    ) -> Result<Plate, Refusal> {
        let pixels = record.pixels()?;
        let mut out = vec![0; pixels];
        let head = operation(&mut out, self.lend(pixels));
        Refusal::check(head.refusal)?;
        Ok(Plate::new(head.width, head.height, head.greatest, out))
    }
}
