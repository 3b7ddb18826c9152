//! Reading an input whole.

use std::ffi::OsStr;
use std::fs::File;
use std::io::{self, Read};

use livukoe::{Plate, Record, Refusal, Roll};

use crate::arguments::Command;
use crate::failure::Failure;
use crate::system;
use crate::words::{Facts, Place};

/// As many bytes as are read of a plate file or a record. No record is longer, and no plate file but by what stands
/// between the numbers of its header or after its pixels.
const MOST_BYTES: u64 = 1 << 28;
/// As many as are read of a roll.
const MOST_ROLL_BYTES: u64 = 1 << 32;
/// As many as are looked at ahead of the others.
const FIRST_BYTES: u64 = 1 << 16;

/// The bytes of an input.
pub struct Input {
    pub bytes: Vec<u8>,
    /// As many as may be taken; where there are more, one more was read.
    most: u64,
}

impl Input {
    pub fn roll(&self) -> Roll<'_> {
        Roll::from_bytes(&self.bytes)
    }

    fn goes_on(&self) -> bool {
        self.bytes.len() as u64 > self.most
    }
}

/// The plate of a plate file.
pub fn read_plate(command: &Command) -> Result<Plate, Failure> {
    let input = read(&command.input, MOST_BYTES, may_be_plate)?;
    let facts = Facts {
        bytes: &input.bytes,
        goes_on: input.goes_on(),
        ..Facts::default()
    };
    judge(command, Plate::from_pgm(&input.bytes), input.most, &facts)
}

/// The bytes of a roll, which are not judged yet.
pub fn read_roll(command: &Command) -> Result<Input, Failure> {
    read(&command.input, MOST_ROLL_BYTES, may_be_plate)
}

/// What an operation answered on a roll. Where it refused, the first faulty plate is looked for.
pub fn answered<T>(
    command: &Command,
    input: &Input,
    answer: Result<T, Refusal>,
) -> Result<T, Failure> {
    let mut plates = input.roll().plates();
    if answer.is_err() {
        plates.by_ref().for_each(drop);
    }
    let (number, at) = (plates.number(), plates.at());
    let bytes = &input.bytes[at..];
    let later = number > 0 && !bytes.is_empty();
    let facts = Facts {
        bytes,
        place: later.then_some(Place { number, at }),
        plates: number,
        number: &command.number.given,
        goes_on: input.goes_on(),
        ..Facts::default()
    };
    judge(command, answer, input.most, &facts)
}

/// What an operation answers on a record.
pub fn from_record<T>(
    command: &Command,
    operation: impl FnOnce(&Record) -> Result<T, Refusal>,
) -> Result<T, Failure> {
    let input = read(&command.input, MOST_BYTES, may_be_record)?;
    let goes_on = input.goes_on();
    let record = Record::from_bytes(input.bytes);
    let answer = operation(&record);
    let facts = Facts {
        bytes: record.bytes(),
        record: Some(&record),
        goes_on,
        size: record.head().ok().map(|head| (head.width, head.height)),
        limit: &command.limit.given,
        ..Facts::default()
    };
    judge(command, answer, MOST_BYTES, &facts)
}

/// Whether more bytes can matter: what begins otherwise is refused by its first bytes, however long it is.
fn may_be_plate(first: &[u8]) -> bool {
    first.starts_with(b"P5")
}

/// Whether more bytes can matter: not where the head of a record is malformed or outside its range.
fn may_be_record(first: &[u8]) -> bool {
    use Refusal::{FieldForm, FieldRange};
    let head = Record::from_bytes(first.to_vec()).head();
    !matches!(head, Err(FieldForm | FieldRange))
}

/// An answer on the bytes that were read. Where there are more, it counts only if these could not change it.
fn judge<T>(
    command: &Command,
    answer: Result<T, Refusal>,
    most: u64,
    facts: &Facts,
) -> Result<T, Failure> {
    use Refusal::{FieldUnended, Header, Letters, PlateNumber, RasterShort};
    let open = match answer {
        Ok(_) | Err(FieldUnended | Header | RasterShort | PlateNumber) => true,
        Err(Letters) => b"P5".starts_with(facts.bytes),
        Err(_) => false,
    };
    if facts.goes_on && open {
        return Err(Failure::too_long(&command.input, most));
    }
    answer.map_err(|refusal| Failure::refused(&command.input, refusal, facts))
}

/// The bytes of a file or of standard input: all of them, up to one more than the most, where the first may be those of
/// what is wanted.
fn read(name: &OsStr, most: u64, wanted: fn(&[u8]) -> bool) -> Result<Input, Failure> {
    let read = open(name).and_then(|file| {
        let mut bytes = Vec::new();
        (&file).take(FIRST_BYTES).read_to_end(&mut bytes)?;
        if wanted(&bytes) {
            let length = file.metadata()?.len().min(most) as usize;
            bytes.reserve_exact((length + 1).saturating_sub(bytes.len()));
            let more = most + 1 - FIRST_BYTES;
            (&file).take(more).read_to_end(&mut bytes)?;
        }
        Ok(bytes)
    });
    let bytes = read.map_err(|error| Failure::reading(name, error))?;
    Ok(Input { bytes, most })
}

fn open(name: &OsStr) -> io::Result<File> {
    if name == "-" {
        system::descriptor(0)
    } else {
        File::open(name)
    }
}

#[cfg(test)]
mod tests {
    use std::ffi::OsString;

    use super::*;
    use crate::arguments::{self, Request};

    /// What is told of a roll of which so many bytes are taken at most.
    fn told(bytes: &[u8], most: u64) -> String {
        let words = ["roll", "count", "job.pgm"].map(OsString::from);
        let Ok(Request::Run(command)) = arguments::parse(words.into_iter()) else {
            panic!("no command");
        };
        let bytes = bytes.to_vec();
        let input = Input { bytes, most };
        match answered(&command, &input, input.roll().count()) {
            Ok(_) => String::new(),
            Err(Failure::Refused(words) | Failure::File(words)) => words,
            Err(_) => panic!("another failure"),
        }
    }

    /// Of a roll that goes on only those refusals are given that more bytes could not change.
    #[test]
    fn rolls_that_go_on() {
        for (after, refused) in [
            (&b"P5 1 1 255 a"[..], ""),
            (b"P", "refused 10"),
            (b"P5 1", "refused 11"),
            (b"P5 2 1 255 a", "refused 14"),
        ] {
            let roll = [b"P5 1 1 255 a", after].concat();
            let length = roll.len() as u64;
            assert!(told(&roll, length).contains(refused));
            assert!(told(&roll, length - 1).ends_with(&format!("more than {} bytes", length - 1)));
        }
        for (after, refused) in [
            (&b"\n"[..], "refused 10: at least 1 byte left over"),
            (b"P6", "refused 10: at least 2 bytes left over"),
            (b"P5 0 1 255 ", "refused 2"),
            (b"P5 1 1 0 ", "refused 12"),
            (b"P5 1 1 9 \x0a", "refused 28"),
        ] {
            let roll = [b"P5 1 1 255 a", after].concat();
            let words = told(&roll, roll.len() as u64 - 1);
            assert!(words.contains(refused), "{words}");
        }
    }
}
