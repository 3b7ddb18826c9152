//! Writing a record, reading it in either form, and cutting it at a limit.

use crate::grid::{
    check_plate, is_connectivity, is_greatest, is_size, is_width_or_height, Grid, Shape,
};
use crate::nodes::{cut_of, nodes_of, own_nodes, Node};
use crate::varint::{spelled, take_field};
use crate::work::{check_work, zero_work};

/// The first field of a record in the new form, and its second.
const NEW_FORM: [u32; 2] = [0, 2];
/// The greatest grey of every record in the old form.
pub const OLD_GREATEST: u32 = 255;

/// The answer of writing a record and of converting it.
#[derive(Clone, Copy, Debug, Default, PartialEq, Eq)]
pub struct RecordLength {
    pub refusal: u32,
    pub length: usize,
}

/// The answer of reading a record and of cutting it.
#[derive(Clone, Copy, Debug, Default, PartialEq, Eq)]
pub struct RecordHead {
    pub refusal: u32,
    pub width: u32,
    pub height: u32,
    pub greatest: u32,
    pub connectivity: u32,
}

/// Writes the record of a plate, in the new form.
pub fn write_record(
    plate: &[u16],
    width: u32,
    height: u32,
    greatest: u32,
    connectivity: u32,
    out: &mut [u8],
    work: &mut [u32],
) -> RecordLength {
    let shape = Shape::of([width, height, greatest, connectivity]);
    RecordLength::of(write_checked(plate, shape, out, work))
}

impl RecordLength {
    /// The answer: the length of the record, or the refusal.
    pub fn of(put: Result<usize, u32>) -> RecordLength {
        match put {
            Ok(length) => RecordLength { refusal: 0, length },
            Err(refusal) => RecordLength { refusal, length: 0 },
        }
    }
}

/// Writing with its conditions: 1, 2, 29, 3, 28, 6, 5.
fn write_checked(
    plate: &[u16],
    shape: Shape,
    out: &mut [u8],
    work: &mut [u32],
) -> Result<usize, u32> {
    let grid = check_plate(plate, shape)?;
    check_work(work, grid.pixels())?;
    zero_work(work, grid.pixels());
    let record = record_of(&grid, shape.greatest, plate, &nodes_of(&grid, plate));
    put(&record, out)?;
    Ok(record.len())
}

/// The bytes of a plate's record in the new form, given its nodes: three fields in
/// front of the old form.
pub fn record_of(grid: &Grid, greatest: u32, plate: &[u16], nodes: &[Node]) -> Vec<u8> {
    let front = NEW_FORM.into_iter().chain([greatest]);
    let mut record: Vec<u8> = front.flat_map(spelled).collect();
    record.extend(old_record_of(grid, plate, nodes));
    record
}

/// The bytes of a plate's record in the old form, given its nodes.
pub fn old_record_of(grid: &Grid, plate: &[u16], nodes: &[Node]) -> Vec<u8> {
    let mut fields = vec![grid.width, grid.height, grid.connectivity as usize];
    fields.push(nodes.len());
    for (i, node) in nodes.iter().enumerate() {
        let parent = &nodes[node.parent];
        if i == 0 {
            fields.push(usize::from(node.level));
        } else {
            fields.push(i - node.parent);
            fields.push(usize::from(node.level - parent.level));
        }
        fields.push(node.area);
    }
    fields.extend(own_nodes(plate, nodes));
    fields.iter().flat_map(|&f| spelled(f as u32)).collect()
}

/// Reads a record back into its plate.
pub fn read_record(record: &[u8], out: &mut [u16], work: &mut [u32]) -> RecordHead {
    match read_checked(record, out, work) {
        Ok(accepted) => head_of(&accepted),
        Err(refusal) => refused(refusal),
    }
}

/// Reading with its conditions: up to 24, then 5.
fn read_checked(record: &[u8], out: &mut [u16], work: &mut [u32]) -> Result<Accepted, u32> {
    let accepted = accept_record(record, work)?;
    put(&accepted.plate, out)?;
    Ok(accepted)
}

/// Cuts a record at a limit.
pub fn cut_record(record: &[u8], limit: u32, out: &mut [u16], work: &mut [u32]) -> RecordHead {
    match cut_checked(record, limit, out, work) {
        Ok(accepted) => head_of(&accepted),
        Err(refusal) => refused(refusal),
    }
}

/// Cutting with its conditions: up to 24, then 4, then 5.
fn cut_checked(
    record: &[u8],
    limit: u32,
    out: &mut [u16],
    work: &mut [u32],
) -> Result<Accepted, u32> {
    let accepted = accept_record(record, work)?;
    if limit == 0 || limit as usize > accepted.grid.pixels() {
        return Err(4);
    }
    let cut = cut_of(&accepted.grid, &accepted.nodes, limit as usize);
    put(&cut, out)?;
    Ok(accepted)
}

/// Copies a plate, a record or a file to the output, or 5 when that is shorter.
pub fn put<T: Copy>(answer: &[T], out: &mut [T]) -> Result<(), u32> {
    if out.len() < answer.len() {
        return Err(5);
    }
    out[..answer.len()].copy_from_slice(answer);
    Ok(())
}

/// The answer without a refusal.
fn head_of(accepted: &Accepted) -> RecordHead {
    RecordHead {
        refusal: 0,
        width: accepted.grid.width as u32,
        height: accepted.grid.height as u32,
        greatest: accepted.greatest,
        connectivity: accepted.grid.connectivity,
    }
}

/// The answer with a refusal.
fn refused(refusal: u32) -> RecordHead {
    RecordHead {
        refusal,
        ..RecordHead::default()
    }
}

/// A record that was accepted: its plate, with the greatest grey and the nodes.
pub struct Accepted {
    pub grid: Grid,
    pub greatest: u32,
    pub plate: Vec<u16>,
    pub nodes: Vec<Node>,
}

impl Accepted {
    /// The plate's record in a form.
    pub fn spelled_in(&self, form: Form) -> Vec<u8> {
        match form {
            Form::Old => old_record_of(&self.grid, &self.plate, &self.nodes),
            Form::New => record_of(&self.grid, self.greatest, &self.plate, &self.nodes),
        }
    }
}

/// The forms of a record.
#[derive(Clone, Copy, Debug, PartialEq, Eq)]
pub enum Form {
    Old,
    New,
}

/// All conditions on a record up to 24, in order. Work space is zeroed as
/// soon as 6 is after, so every later refusal finds it so.
pub fn accept_record(record: &[u8], work: &mut [u32]) -> Result<Accepted, u32> {
    let mut fields = Fields { bytes: record };
    let (form, greatest) = take_form(&mut fields)?;
    let (grid, count) = take_head(&mut fields)?;
    check_work(work, grid.pixels())?;
    zero_work(work, grid.pixels());
    let levels = take_nodes(&mut fields, &grid, greatest, count)?;
    let plate = take_plate(&mut fields, &grid, &levels)?;
    if !fields.bytes.is_empty() {
        return Err(23);
    }
    let accepted = Accepted {
        grid,
        greatest,
        nodes: nodes_of(&grid, &plate),
        plate,
    };
    if accepted.spelled_in(form) != record {
        return Err(24);
    }
    Ok(accepted)
}

/// The form, and the greatest grey. A first field of 0 marks the new form; any other
/// is the width of the old one and is left to be taken as such.
fn take_form(fields: &mut Fields) -> Result<(Form, u32), u32> {
    let (first, _) = take_field(fields.bytes)?;
    if first != NEW_FORM[0] {
        return Ok((Form::Old, OLD_GREATEST));
    }
    for mark in NEW_FORM {
        fields.take(|field| field == mark)?;
    }
    Ok((Form::New, fields.take(is_greatest)?))
}

/// Width, height, connectivity and node count.
fn take_head(fields: &mut Fields) -> Result<(Grid, u32), u32> {
    let width = fields.take(is_width_or_height)?;
    let height = fields.take(|height| is_size(width, height))?;
    let connectivity = fields.take(is_connectivity)?;
    let grid = Grid::new(width, height, connectivity);
    let pixels = grid.pixels() as u32;
    let count = fields.take(|count| (1..=pixels).contains(&count))?;
    Ok((grid, count))
}

/// The fields of the nodes; what is kept of them is their levels.
fn take_nodes(
    fields: &mut Fields,
    grid: &Grid,
    greatest: u32,
    count: u32,
) -> Result<Vec<u32>, u32> {
    let pixels = grid.pixels() as u32;
    let is_area = |area: u32| (1..=pixels).contains(&area);
    let root_level = fields.take(|level| level <= greatest)?;
    fields.take(is_area)?;
    let mut levels = vec![root_level];
    for number in 1..count {
        let step = fields.take(|step| (1..=number).contains(&step))?;
        let parent_level = levels[(number - step) as usize];
        let rise = fields.take(|rise| (1..=greatest - parent_level).contains(&rise))?;
        fields.take(is_area)?;
        levels.push(parent_level + rise);
    }
    Ok(levels)
}

/// The own nodes of all pixels, turned into the plate they spell.
fn take_plate(fields: &mut Fields, grid: &Grid, levels: &[u32]) -> Result<Vec<u16>, u32> {
    let mut plate = Vec::new();
    for _ in 0..grid.pixels() {
        let own = fields.take(|own| (own as usize) < levels.len())?;
        plate.push(levels[own as usize] as u16);
    }
    Ok(plate)
}

/// The bytes of a record that are still to be taken.
struct Fields<'a> {
    bytes: &'a [u8],
}

impl Fields<'_> {
    /// Takes the next field: 20, 21, then 22 when it is outside its range.
    fn take(&mut self, in_range: impl Fn(u32) -> bool) -> Result<u32, u32> {
        let (value, behind) = take_field(self.bytes)?;
        if !in_range(value) {
            return Err(22);
        }
        self.bytes = behind;
        Ok(value)
    }
}
