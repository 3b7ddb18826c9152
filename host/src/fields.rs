//! The fields of a record, one after another: its head, and where it is damaged.
//!
//! This walk is not proved. It sizes buffers, it refuses a record that is too short for the pixels that it promises, and
//! it says in words where a record is damaged. What a record's plate is, the proved functions say.

use std::fmt;

use crate::connectivity::Connectivity;
use crate::form::RecordForm;
use crate::refusal::Refusal;
use crate::{BYTE_GREATEST, MAX_EXTENT, MAX_GREATEST, MAX_PIXELS};

/// What the first field of the new form is, as its byte, and what the second is.
const FIRST: u8 = 0;
const SECOND: u32 = 2;

/// What a record's first fields say, up to the node count.
#[derive(Clone, Copy, Debug, PartialEq, Eq)]
#[non_exhaustive]
pub struct Head {
    pub form: RecordForm,
    pub width: u32,
    pub height: u32,
    /// The greatest grey that a pixel may have; 255 for the old form.
    pub greatest: u32,
    pub connectivity: Connectivity,
    /// The number of nodes.
    pub nodes: u32,
}

impl Head {
    /// The number of pixels.
    pub fn pixels(&self) -> usize {
        self.width as usize * self.height as usize
    }
}

/// A field of a record that is unended, malformed or outside its range.
#[derive(Clone, Debug, PartialEq, Eq)]
#[non_exhaustive]
pub struct Fault {
    /// 20, 21 or 22.
    pub refusal: Refusal,
    /// Where the field begins: how many bytes are ahead of it.
    pub at: usize,
    /// What the field is, in words.
    pub field: String,
    /// What was found, and what is allowed, in words.
    pub found: String,
}

impl fmt::Display for Fault {
    fn fmt(&self, f: &mut fmt::Formatter) -> fmt::Result {
        write!(f, "byte {}: the {} {}", self.at, self.field, self.found)
    }
}

/// The head of a record.
pub fn head(bytes: &[u8]) -> Result<Head, Fault> {
    Fields { bytes, at: 0 }.head()
}

/// How many bytes the fields of a record have.
pub fn length(bytes: &[u8]) -> Result<usize, Fault> {
    let mut fields = Fields { bytes, at: 0 };
    let head = fields.head()?;
    fields.nodes(head)?;
    for pixel in 0..head.pixels() {
        fields.own_node(pixel, head)?;
    }
    Ok(fields.at)
}

/// The fields that are left from some byte on.
struct Fields<'a> {
    bytes: &'a [u8],
    at: usize,
}

impl Fields<'_> {
    fn head(&mut self) -> Result<Head, Fault> {
        let (form, greatest) = self.front()?;
        let width = self.within(1, MAX_EXTENT, || "width".into())?;
        let tallest = MAX_EXTENT.min(MAX_PIXELS as u32 / width);
        let height = self.within(1, tallest, || "height".into())?;
        let number = self.next(
            |number| Connectivity::from_number(number).is_some(),
            || ("connectivity".into(), "4, 6 or 8".into()),
        )?;
        let nodes = self.within(1, width * height, || "node count".into())?;
        Ok(Head {
            form,
            width,
            height,
            greatest,
            connectivity: Connectivity::from_number(number).unwrap_or_default(),
            nodes,
        })
    }

    /// The fields that the new form has in front: the form, and the greatest grey.
    fn front(&mut self) -> Result<(RecordForm, u32), Fault> {
        if self.bytes.first() != Some(&FIRST) {
            return Ok((RecordForm::Old, BYTE_GREATEST));
        }
        self.at += 1;
        self.next(
            |number| number == SECOND,
            || {
                let allowed = format!("{SECOND} in the new form");
                ("second field".into(), allowed)
            },
        )?;
        let greatest = self.within(1, MAX_GREATEST, || "greatest grey".into())?;
        Ok((RecordForm::New, greatest))
    }

    /// The nodes: the root, then each with its parent's level below it.
    fn nodes(&mut self, head: Head) -> Result<(), Fault> {
        let (pixels, greatest) = (head.pixels() as u32, head.greatest);
        let mut levels = vec![self.within(0, greatest, || "root's level".into())?];
        self.within(1, pixels, || "root's area".into())?;
        for node in 1..head.nodes {
            let step = self.within(1, node, || format!("step of node {node}"))?;
            let parent = levels[(node - step) as usize];
            let rise = self.within(1, greatest - parent, || format!("rise of node {node}"))?;
            self.within(1, pixels, || format!("area of node {node}"))?;
            levels.push(parent + rise);
        }
        Ok(())
    }

    fn own_node(&mut self, pixel: usize, head: Head) -> Result<u32, Fault> {
        self.within(0, head.nodes - 1, || format!("own node of pixel {pixel}"))
    }

    /// The next field, which is allowed from one number to another.
    fn within(
        &mut self,
        least: u32,
        most: u32,
        name: impl FnOnce() -> String,
    ) -> Result<u32, Fault> {
        let allowed = |number| (least..=most).contains(&number);
        self.next(allowed, || (name(), format!("{least} to {most}")))
    }

    /// The next field. The words are its name and what is allowed.
    fn next(
        &mut self,
        allowed: impl FnOnce(u32) -> bool,
        words: impl FnOnce() -> (String, String),
    ) -> Result<u32, Fault> {
        let left = &self.bytes[self.at..];
        let end = left.iter().position(|byte| byte & 128 == 0);
        let groups = end.map(|last| &left[..=last]);
        let number = groups.and_then(shortest);
        if let (Some(groups), Some(number)) = (groups, number.filter(|&number| allowed(number))) {
            self.at += groups.len();
            return Ok(number);
        }
        let (field, range) = words();
        let (refusal, found) = match (groups, number) {
            (None, _) => (
                Refusal::FieldUnended,
                format!("is not ended; the record has {} bytes", self.bytes.len()),
            ),
            (_, None) => (
                Refusal::FieldForm,
                String::from("is not in its shortest form, or is above 4294967295"),
            ),
            (_, Some(number)) => (Refusal::FieldRange, format!("is {number}; {range}")),
        };
        Err(Fault {
            refusal,
            at: self.at,
            field,
            found,
        })
    }
}

/// The number of groups of seven bits, lowest first, where they are its shortest form and it has 32 bits.
fn shortest(groups: &[u8]) -> Option<u32> {
    let (last, ahead) = groups.split_last()?;
    let padded = *last == 0 && !ahead.is_empty();
    if padded || groups.len() > 5 {
        return None;
    }
    let value = groups
        .iter()
        .rev()
        .fold(0u64, |value, group| value * 128 + u64::from(group & 127));
    u32::try_from(value).ok()
}
