//! Refusals in words, with the figures of the case. A refusal without a row is told by what it means.

use livukoe::{Record, Refusal, BYTE_GREATEST, MAX_EXTENT, MAX_GREATEST, MAX_PIXELS};

use crate::formats;
use crate::header::{self, Header};

/// What is known when an operation refuses.
#[derive(Default)]
pub struct Facts<'a> {
    /// The bytes of the input, where they are still there; those of a roll from the plate in question on.
    pub bytes: &'a [u8],
    /// The record that they should be, where they should be one.
    pub record: Option<&'a Record>,
    /// Whether the input has more bytes than were read.
    pub goes_on: bool,
    /// Which plate of a roll is in question, where it is to be named.
    pub place: Option<Place>,
    /// How many sound plates the roll has up to there.
    pub plates: usize,
    /// The number of a plate as it was given.
    pub number: &'a str,
    /// Width and height, where they are known.
    pub size: Option<(u32, u32)>,
    /// The limit as it was given.
    pub limit: &'a str,
    /// Width and height as they were given, where no input has them.
    pub asked: Option<[&'a str; 2]>,
}

/// A plate of a roll.
pub struct Place {
    /// Counted from 0.
    pub number: usize,
    /// How many bytes are ahead of it.
    pub at: usize,
}

/// How a refusal is told.
type Row = (Refusal, fn(&Facts) -> Option<String>);

const ROWS: [Row; 14] = [
    (Refusal::Grid, grid),
    (Refusal::Limit, limit),
    (Refusal::Letters, letters),
    (Refusal::Header, header),
    (Refusal::FileGreatest, file_greatest),
    (Refusal::RasterShort, raster_short),
    (Refusal::RasterLong, raster_long),
    (Refusal::FieldUnended, fault),
    (Refusal::FieldForm, fault),
    (Refusal::FieldRange, fault),
    (Refusal::RecordLong, record_long),
    (Refusal::PlateNumber, plate_number),
    (Refusal::Grey, grey),
    (Refusal::NoOldForm, no_old_form),
];

/// Why an operation refused, with the figures that are known.
pub fn of(refusal: Refusal, facts: &Facts) -> String {
    let words = ROWS
        .iter()
        .find(|(known, _)| *known == refusal)
        .and_then(|(_, words)| words(facts))
        .unwrap_or_else(|| refusal.meaning().to_owned());
    match &facts.place {
        // the words of this one have the plate in them
        Some(Place { number, at }) if refusal != Refusal::Letters => {
            format!("plate {number}, which begins at byte {at}: {words}")
        }
        _ => words,
    }
}

fn grid(facts: &Facts) -> Option<String> {
    let [width, height] = match facts.asked {
        Some(size) => size.map(str::to_owned),
        None => {
            let Header { width, height, .. } = header::scan(facts.bytes).ok()?;
            [width, height].map(|extent| extent.to_string())
        }
    };
    let fitting = |extent: &str| {
        let extent = extent.parse().ok()?;
        (1..=MAX_EXTENT).contains(&extent).then_some(extent)
    };
    Some(match (fitting(&width), fitting(&height)) {
        (Some(columns), Some(rows)) => {
            let pixels = columns * rows;
            format!("{width} x {height} = {pixels} pixels; at most {MAX_PIXELS}")
        }
        _ => format!("{width} x {height} pixels; width and height are each 1 to {MAX_EXTENT}"),
    })
}

fn limit(facts: &Facts) -> Option<String> {
    let (width, height) = facts.size?;
    let pixels = u64::from(width) * u64::from(height);
    Some(match facts.limit.trim_start_matches('0') {
        "" => "the limit is 0; the least is 1".to_owned(),
        limit => format!("the limit {limit} is above the {pixels} pixels ({width} x {height})"),
    })
}

/// What is no plate file, or what stands after a plate of a roll and begins no other.
fn letters(facts: &Facts) -> Option<String> {
    let Some(Place { number, at }) = facts.place else {
        return Some(formats::no_plate_file(facts.bytes));
    };
    let (count, ahead) = (counted(facts.bytes.len(), facts.goes_on), number - 1);
    let begun = formats::known(facts.bytes);
    let begun = begun.map_or(String::new(), |what| format!(", and this is {what}"));
    Some(format!(
        "{count} left over after plate {ahead}, at byte {at}; another plate would begin with P5{begun}"
    ))
}

fn header(facts: &Facts) -> Option<String> {
    let stop = header::scan(facts.bytes).err()?;
    let (at, wanted) = (stop.at, stop.wanted);
    Some(match facts.bytes.get(at) {
        Some(byte) => {
            let byte = byte.escape_ascii();
            format!("byte {at} of the header is '{byte}'; {wanted} should be there")
        }
        None => {
            let end = at + facts.place.as_ref().map_or(0, |place| place.at);
            format!("the file ends at byte {end}; {wanted} should be there")
        }
    })
}

fn file_greatest(facts: &Facts) -> Option<String> {
    let Header { greatest, .. } = header::scan(facts.bytes).ok()?;
    Some(format!(
        "the greatest grey is {greatest}; 1 to {MAX_GREATEST}"
    ))
}

fn raster_short(facts: &Facts) -> Option<String> {
    let header = header::scan(facts.bytes).ok()?;
    let there = counted(facts.bytes.len().checked_sub(header.raster)?, false);
    Some(format!("{there} for {}", pixels(&header)))
}

fn raster_long(facts: &Facts) -> Option<String> {
    let header = header::scan(facts.bytes).ok()?;
    let plate_end = header.raster + header.depth() * usize::try_from(header.pixels()).ok()?;
    let left = facts.bytes.get(plate_end..)?;
    let count = counted(left.len(), facts.goes_on);
    let Header { width, height, .. } = header;
    Some(if left.starts_with(b"P5") {
        format!("a roll of several plates: {count} after the first ({width} x {height}) begin with P5; pamsplit parts them")
    } else {
        format!("{count} left over after the {}", pixels(&header))
    })
}

/// How many pixels a header promises, and how they are stored where that is not a byte for each.
fn pixels(header: &Header) -> String {
    let (pixels, Header { width, height, .. }) = (header.pixels(), header);
    match header.depth() {
        1 => format!("{pixels} pixels ({width} x {height})"),
        depth => format!("{pixels} pixels ({width} x {height}) of {depth} bytes each"),
    }
}

fn grey(facts: &Facts) -> Option<String> {
    let header = header::scan(facts.bytes).ok()?;
    let Header {
        width, greatest, ..
    } = header;
    let above = |(_, grey): &(u64, u64)| *grey > greatest;
    let (pixel, grey) = (0..).zip(header.greys(facts.bytes)).find(above)?;
    let (row, column) = (pixel / width, pixel % width);
    Some(format!(
        "pixel {pixel} (row {row}, column {column}) is {grey}, above the greatest grey {greatest}"
    ))
}

fn fault(facts: &Facts) -> Option<String> {
    let fault = facts.record?.fault()?;
    Some(match formats::no_record(facts.bytes) {
        Some(what) => format!("{fault} (the input is {what}, not a record)"),
        None => fault.to_string(),
    })
}

fn record_long(facts: &Facts) -> Option<String> {
    let left = facts.record?.left_over();
    let count = counted(left, facts.goes_on);
    (left > 0).then(|| format!("{count} left over after the last field"))
}

fn plate_number(facts: &Facts) -> Option<String> {
    let plates = facts.plates;
    let noun = if plates == 1 { "plate" } else { "plates" };
    let number = match facts.number.trim_start_matches('0') {
        "" => "0",
        number => number,
    };
    Some(format!(
        "the number {number} is not below the {plates} {noun}"
    ))
}

fn no_old_form(facts: &Facts) -> Option<String> {
    let head = facts.record?.head().ok()?;
    Some(format!(
        "the record's greatest grey is {}; only with {BYTE_GREATEST} is there an old form",
        head.greatest
    ))
}

fn counted(bytes: usize, or_more: bool) -> String {
    let least = if or_more { "at least " } else { "" };
    let noun = if bytes == 1 { "byte" } else { "bytes" };
    format!("{least}{bytes} {noun}")
}
