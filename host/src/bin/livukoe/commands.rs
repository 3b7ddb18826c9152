//! Runs a command: the input is read whole, the work is done, and only then is anything written.

use std::ffi::OsStr;

use livukoe::{Plate, Record, RecordForm, Refusal};

use crate::arguments::{Command, Size, Verb};
use crate::failure::Failure;
use crate::input;
use crate::output;
use crate::progress::Progress;
use crate::rolls;
use crate::words::Facts;

pub fn run(command: &Command) -> Result<(), Failure> {
    match command.verb {
        Verb::Clean => from_plate(command, "cleaning", clean),
        Verb::Maxima => from_plate(command, "marking maxima", maxima),
        Verb::Nodes => nodes(command),
        Verb::Record => record(command),
        Verb::Plate => plate(command),
        Verb::Cut => cut(command),
        Verb::Convert => convert(command),
        Verb::SizeList => size_list(command),
        Verb::RollCount => rolls::count(command),
        Verb::RollPlate => rolls::plate(command),
        Verb::Seed => seed(command),
    }
}

fn clean(plate: &Plate, command: &Command) -> Result<Plate, Refusal> {
    let side = command.side.ok_or(Refusal::Side)?;
    plate.clean(side, command.connectivity, command.limit.number)
}

/// Marks as a picture: the greatest grey inside a maximum.
fn maxima(plate: &Plate, command: &Command) -> Result<Plate, Refusal> {
    let marks = plate.regional_maxima(command.connectivity)?;
    let (width, height, greatest) = (plate.width(), plate.height(), plate.greatest());
    let greys = marks.greys().iter();
    let greys = greys.map(|mark| greatest as u16 * mark).collect();
    Ok(Plate::new(width, height, greatest, greys))
}

/// From a plate file to a plate file.
fn from_plate(
    command: &Command,
    doing: &str,
    operation: fn(&Plate, &Command) -> Result<Plate, Refusal>,
) -> Result<(), Failure> {
    let file = on_plate(command, doing, |plate| operation(plate, command)?.to_pgm())?;
    write_bytes(command, &file)
}

fn plate(command: &Command) -> Result<(), Failure> {
    let file = on_record(command, "reading a record", |record| {
        record.plate()?.to_pgm()
    })?;
    write_bytes(command, &file)
}

fn cut(command: &Command) -> Result<(), Failure> {
    let limit = command.limit.number;
    let file = on_record(command, "cutting a record", |record| {
        record.cut(limit)?.to_pgm()
    })?;
    write_bytes(command, &file)
}

fn convert(command: &Command) -> Result<(), Failure> {
    let form = command.to.unwrap_or(RecordForm::New); // it is always given
    let converted = on_record(command, "converting a record", |record| {
        record.to_form(form)
    })?;
    write_bytes(command, converted.bytes())
}

fn record(command: &Command) -> Result<(), Failure> {
    let record = on_plate(command, "writing a record", |plate| {
        plate.record(command.connectivity)
    })?;
    write_bytes(command, record.bytes())
}

fn nodes(command: &Command) -> Result<(), Failure> {
    let nodes = on_plate(command, "listing nodes", |plate| {
        plate.nodes(command.connectivity)
    })?;
    output::write(command, &|out| {
        for (number, node) in nodes.iter().enumerate() {
            writeln!(
                out,
                "{number} {} {} {} {}",
                node.level, node.parent, node.area, node.anchor
            )?;
        }
        Ok(())
    })
}

fn size_list(command: &Command) -> Result<(), Failure> {
    let sizes = on_plate(command, "listing sizes", |plate| {
        plate.record(command.connectivity)?.sizes()
    })?;
    output::write(command, &|out| write!(out, "{sizes}"))
}

fn seed(command: &Command) -> Result<(), Failure> {
    let Size { width, height } = &command.size;
    let plate = Plate::seeded(command.seed, width.number, height.number);
    let file = plate.and_then(|plate| plate.to_pgm()).map_err(|refusal| {
        let facts = Facts {
            asked: Some([&width.given, &height.given]),
            ..Facts::default()
        };
        let name = format!("--size {}x{}", width.given, height.given);
        Failure::refused(OsStr::new(&name), refusal, &facts)
    })?;
    write_bytes(command, &file)
}

/// Does the work on the plate of a plate file, and shows its progress.
fn on_plate<T>(
    command: &Command,
    doing: &str,
    work: impl FnOnce(&Plate) -> Result<T, Refusal>,
) -> Result<T, Failure> {
    let plate = input::read_plate(command)?;
    let (width, height) = (plate.width(), plate.height());
    let _progress = Progress::of(format!("{doing}, {width} x {height}"));
    work(&plate).map_err(|refusal| {
        let facts = Facts {
            size: Some((width, height)),
            limit: &command.limit.given,
            ..Facts::default()
        };
        Failure::refused(&command.input, refusal, &facts)
    })
}

/// Does the work on a record, and shows its progress.
fn on_record<T>(
    command: &Command,
    doing: &str,
    work: impl FnOnce(&Record) -> Result<T, Refusal>,
) -> Result<T, Failure> {
    input::from_record(command, |record| {
        let _progress = Progress::of(doing.to_owned());
        work(record)
    })
}

/// Writes a plate file, a record or a line.
pub fn write_bytes(command: &Command, bytes: &[u8]) -> Result<(), Failure> {
    output::write(command, &|out| out.write_all(bytes))
}
