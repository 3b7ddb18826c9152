//! The commands on rolls. All plates are judged ahead of the first byte that is written.

use crate::arguments::Command;
use crate::commands::write_bytes;
use crate::failure::Failure;
use crate::input;

pub fn count(command: &Command) -> Result<(), Failure> {
    let input = input::read_roll(command)?;
    let count = input::answered(command, &input, input.roll().count())?;
    write_bytes(command, format!("{count}\n").as_bytes())
}

pub fn plate(command: &Command) -> Result<(), Failure> {
    let input = input::read_roll(command)?;
    let plate = input.roll().plate(command.number.number as usize);
    let file = plate.and_then(|plate| plate.to_pgm());
    let file = input::answered(command, &input, file)?;
    write_bytes(command, &file)
}
