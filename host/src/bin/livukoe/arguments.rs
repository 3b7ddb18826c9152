//! What the command line asks for.

use std::ffi::{OsStr, OsString};
use std::str::FromStr;

use livukoe::{Connectivity, RecordForm, Side};

use crate::names::shown;

/// A request: help, the version, or a command to run.
#[derive(Debug, PartialEq)]
pub enum Request {
    Help,
    Version,
    Run(Command),
}

/// What a command does.
#[derive(Clone, Copy, Debug, PartialEq)]
pub enum Verb {
    Clean,
    Maxima,
    Nodes,
    Record,
    Plate,
    Cut,
    Convert,
    SizeList,
    RollCount,
    RollPlate,
    Seed,
}

/// A command with its arguments.
#[derive(Debug, PartialEq)]
pub struct Command {
    pub verb: Verb,
    /// None where the command takes none.
    pub side: Option<Side>,
    /// 0 where the command takes none.
    pub limit: Number,
    /// Of a plate of a roll; 0 where the command takes none.
    pub number: Number,
    /// None where the command takes none.
    pub to: Option<RecordForm>,
    /// 0 where the command takes none.
    pub seed: u32,
    /// 0 x 0 where the command takes none.
    pub size: Size,
    pub connectivity: Connectivity,
    /// Whether a write-protected output is replaced.
    pub force: bool,
    /// Standard input, `-`, where the command takes none.
    pub input: OsString,
    /// Standard output, `-`, where the command takes none.
    pub output: OsString,
}

/// A number, and how it was given. One that is too large for its type is beyond every plate and every roll, and is refused
/// as such.
#[derive(Debug, Default, PartialEq)]
pub struct Number {
    pub number: u32,
    pub given: String,
}

/// The size of a plate.
#[derive(Debug, Default, PartialEq)]
pub struct Size {
    pub width: Number,
    pub height: Number,
}

/// Which files a command takes.
#[derive(Clone, Copy, PartialEq)]
enum Files {
    In,
    Out,
    InAndOut,
}

/// A command's name, and which arguments it takes.
struct Form {
    /// One word, or two where several commands begin alike.
    name: &'static str,
    verb: Verb,
    /// The options that must be there.
    needs: &'static [&'static str],
    connectivity: bool,
    files: Files,
    line: &'static str,
    about: &'static str,
}

impl Form {
    /// The words of its name.
    fn words(&self) -> (&'static str, Option<&'static str>) {
        match self.name.split_once(' ') {
            Some((first, second)) => (first, Some(second)),
            None => (self.name, None),
        }
    }

    fn takes(&self, option: &str) -> bool {
        match option {
            "--connectivity" => self.connectivity,
            "--force" => self.files != Files::In,
            option => self.needs.contains(&option),
        }
    }
}

const FORMS: [Form; 11] = [
    Form {
        name: "clean",
        verb: Verb::Clean,
        needs: &["--side", "--limit"],
        connectivity: true,
        files: Files::InAndOut,
        line: "clean --side light|dark --limit N [--connectivity 4|6|8] IN.pgm OUT.pgm",
        about: "take away light (dark) patches of fewer than N pixels, but none that reaches the border",
    },
    Form {
        name: "maxima",
        verb: Verb::Maxima,
        needs: &[],
        connectivity: true,
        files: Files::InAndOut,
        line: "maxima [--connectivity 4|6|8] IN.pgm OUT.pgm",
        about: "the greatest grey inside regional maxima, 0 elsewhere",
    },
    Form {
        name: "nodes",
        verb: Verb::Nodes,
        needs: &[],
        connectivity: true,
        files: Files::In,
        line: "nodes  [--connectivity 4|6|8] IN.pgm",
        about: "a line for each node: number level parent area anchor",
    },
    Form {
        name: "record",
        verb: Verb::Record,
        needs: &[],
        connectivity: true,
        files: Files::InAndOut,
        line: "record [--connectivity 4|6|8] IN.pgm OUT.rec",
        about: "write the record of a plate, in the new form",
    },
    Form {
        name: "plate",
        verb: Verb::Plate,
        needs: &[],
        connectivity: false,
        files: Files::InAndOut,
        line: "plate  IN.rec OUT.pgm",
        about: "the plate of a record",
    },
    Form {
        name: "cut",
        verb: Verb::Cut,
        needs: &["--limit"],
        connectivity: false,
        files: Files::InAndOut,
        line: "cut    --limit N IN.rec OUT.pgm",
        about: "the plate of a record, cleaned on the light side under its connectivity",
    },
    Form {
        name: "convert",
        verb: Verb::Convert,
        needs: &["--to"],
        connectivity: false,
        files: Files::InAndOut,
        line: "convert --to old|new IN.rec OUT.rec",
        about: "the record in the old or the new form; only with the greatest grey 255 is there an old one",
    },
    Form {
        name: "sizelist",
        verb: Verb::SizeList,
        needs: &[],
        connectivity: true,
        files: Files::In,
        line: "sizelist [--connectivity 4|6|8] IN.pgm",
        about: "how many nodes off the border have each area, the grey that goes with them, and the grey held",
    },
    Form {
        name: "roll count",
        verb: Verb::RollCount,
        needs: &[],
        connectivity: false,
        files: Files::In,
        line: "roll count IN.pgm",
        about: "the number of plates of a roll, which is plate files one after the other",
    },
    Form {
        name: "roll plate",
        verb: Verb::RollPlate,
        needs: &["--number"],
        connectivity: false,
        files: Files::InAndOut,
        line: "roll plate --number K IN.pgm OUT.pgm",
        about: "the plate of a number, counted from 0, of a roll",
    },
    Form {
        name: "seed",
        verb: Verb::Seed,
        needs: &["--seed", "--size"],
        connectivity: false,
        files: Files::Out,
        line: "seed   --seed N --size WxH OUT.pgm",
        about: "the test plate of a seed from 0 to 4294967295, the same on every machine",
    },
];

/// The commands that were there before, and what is written in their place.
const GONE: [(&str, &str); 2] = [
    ("open", "clean --side light"),
    ("close", "clean --side dark"),
];

/// The text of `--help`.
pub fn help() -> String {
    let mut text = String::from("Verified cleaning of grey images.\n\nUsage:\n");
    for form in &FORMS {
        text += &format!("  livukoe {}\n          {}\n", form.line, form.about);
    }
    text += "
A file named - is standard input or output.
The connectivity says which pixels touch a pixel: 4 (left, right, above, below), 6 (those, the upper left and the lower
right) or 8 (those four and all corners). It is 4 unless it is given.
A patch that reaches the border of the sheet, its first or last row or column, stays whatever the limit, since the next
sheet shows the remainder. For the area opening (closing) of the literature, which has no such rule, put a frame one
pixel wide around the picture, black (0) for the light side, white (the greatest grey) for the dark side, and cut it off
afterwards: only the frame then lies on the border, and no patch inside reaches it.
An OUT that is write-protected is left as it is, except with --force, which replaces it.
IN.pgm is a binary PGM (P5) of up to 32768 x 32768 and 16777216 pixels with a greatest grey of 1 to 65535: one byte a
pixel up to 255, else two, the high one first. OUT.pgm has the same greatest grey, and that of a seed has 255.
roll reads a roll: any number of such files one after the other, none included, of up to 4294967296 bytes. One that is
faulty refuses them all.
IN.rec is a record in the new form, which has the greatest grey, or in the old one, whose greatest grey is 255.

Exit status: 0 done; 1 refused, with the number and the reason; 2 bad usage; 3 a file cannot be read or written,
or there is not enough memory.
";
    text
}

/// Reads the command line, or says what is wrong with it.
pub fn parse(mut words: impl Iterator<Item = OsString>) -> Result<Request, String> {
    let first = words.next().ok_or("no command is given")?;
    match first.to_str() {
        Some("--help" | "-h" | "help") => return Ok(Request::Help),
        Some("--version" | "-V" | "version") => return Ok(Request::Version),
        _ => {}
    }
    let Some(form) = named(&first, &mut words)? else {
        return Ok(Request::Help);
    };
    let given = Given::read(words)?;
    if given.help {
        return Ok(Request::Help);
    }
    given.into_command(form).map(Request::Run)
}

/// The form that the first words name; none where help is asked for in place of the second.
fn named(
    first: &OsStr,
    words: &mut impl Iterator<Item = OsString>,
) -> Result<Option<&'static Form>, String> {
    let alike: Vec<&Form> = FORMS
        .iter()
        .filter(|form| first == form.words().0)
        .collect();
    let seconds: Vec<&str> = alike.iter().filter_map(|form| form.words().1).collect();
    if seconds.is_empty() {
        let form = alike.first().ok_or_else(|| no_command(first))?;
        return Ok(Some(form));
    }
    let first = shown(first);
    let second = words.next();
    let second = second.ok_or_else(|| format!("{first} lacks {}", seconds.join(" or ")))?;
    if second == "--help" || second == "-h" {
        return Ok(None);
    }
    let known = |form: &&Form| form.words().1.is_some_and(|word| second == word);
    let form = alike.into_iter().find(known).ok_or_else(|| {
        let names = seconds.iter().map(|second| format!("{first} {second}"));
        let names = names.collect::<Vec<_>>().join(" or ");
        let second = shown(&second);
        format!("there is no command {first} {second}; write {names}")
    })?;
    Ok(Some(form))
}

fn no_command(name: &OsStr) -> String {
    let none = format!("there is no command {}", shown(name));
    match GONE.iter().find(|(gone, _)| name == *gone) {
        Some((_, instead)) => format!("{none}; write {instead}"),
        None => none,
    }
}

/// The words after a command's name.
#[derive(Default)]
struct Given {
    help: bool,
    force: bool,
    side: Option<Side>,
    limit: Option<Number>,
    number: Option<Number>,
    to: Option<RecordForm>,
    seed: Option<u32>,
    size: Option<Size>,
    connectivity: Option<Connectivity>,
    files: Vec<OsString>,
}

/// The options but for help, in the order in which one too many is told.
const OPTIONS: [&str; 8] = [
    "--side",
    "--limit",
    "--number",
    "--to",
    "--seed",
    "--size",
    "--connectivity",
    "--force",
];

/// What is to be written for an option that lacks.
fn choices(option: &str) -> &str {
    match option {
        "--side" => "--side light or --side dark",
        "--to" => "--to old or --to new",
        option => option,
    }
}

impl Given {
    fn read(mut words: impl Iterator<Item = OsString>) -> Result<Given, String> {
        let mut given = Given::default();
        while let Some(word) = words.next() {
            if word == "--" {
                given.files.extend(words);
                break;
            }
            if word == "-" || !word.as_encoded_bytes().starts_with(b"-") {
                given.files.push(word);
                continue;
            }
            let text = word.to_string_lossy();
            let (name, value) = match text.split_once('=') {
                Some((name, value)) => (name, Some(OsString::from(value))),
                None => (text.as_ref(), None),
            };
            given.take_option(name, value, &mut words)?;
        }
        Ok(given)
    }

    /// Takes an option, whose value is the given one or else the next word.
    fn take_option(
        &mut self,
        name: &str,
        value: Option<OsString>,
        words: &mut impl Iterator<Item = OsString>,
    ) -> Result<(), String> {
        let flag = match name {
            "--help" | "-h" => Some(&mut self.help),
            "--force" => Some(&mut self.force),
            _ => None,
        };
        if let Some(flag) = flag {
            if value.is_some() {
                return Err(format!("{name} takes no value"));
            }
            return once(name, !std::mem::replace(flag, true));
        }
        let value = || {
            let word = value.or_else(|| words.next());
            word.ok_or_else(|| format!("{name} lacks its value"))
        };
        self.take_value(name, value)
    }

    /// Takes an option that has a value.
    fn take_value(
        &mut self,
        name: &str,
        value: impl FnOnce() -> Result<OsString, String>,
    ) -> Result<(), String> {
        match name {
            "--side" => take(name, value, by_text, &mut self.side),
            "--limit" => take(name, value, number, &mut self.limit),
            "--number" => take(name, value, number, &mut self.number),
            "--to" => take(name, value, RecordForm::from_name, &mut self.to),
            "--seed" => take(name, value, seed, &mut self.seed),
            "--size" => take(name, value, size, &mut self.size),
            "--connectivity" => take(name, value, by_text, &mut self.connectivity),
            _ => Err(format!("there is no option {}", shown(OsStr::new(name)))),
        }
    }

    fn has(&self, option: &str) -> bool {
        match option {
            "--side" => self.side.is_some(),
            "--limit" => self.limit.is_some(),
            "--number" => self.number.is_some(),
            "--to" => self.to.is_some(),
            "--seed" => self.seed.is_some(),
            "--size" => self.size.is_some(),
            "--connectivity" => self.connectivity.is_some(),
            _ => self.force,
        }
    }

    /// Whether the options are those of a form: what it needs is there, and nothing that it does not take.
    fn check_options(&self, form: &Form) -> Result<(), String> {
        let name = form.name;
        if let Some(lacking) = form.needs.iter().find(|option| !self.has(option)) {
            return Err(format!("{name} lacks {}", choices(lacking)));
        }
        let unwanted = |option: &&str| self.has(option) && !form.takes(option);
        match OPTIONS.into_iter().find(unwanted) {
            Some(option) => Err(format!("{name} takes no {option}")),
            None => Ok(()),
        }
    }

    /// The command of a form, whose arguments are all there and no others.
    fn into_command(self, form: &Form) -> Result<Command, String> {
        self.check_options(form)?;
        let (wanted, files) = match form.files {
            Files::In => (1, "IN"),
            Files::Out => (1, "OUT"),
            Files::InAndOut => (2, "IN and OUT"),
        };
        if self.files.len() != wanted {
            let count = self.files.len();
            let are = if count == 1 { "file is" } else { "files are" };
            let name = form.name;
            return Err(format!("{name} takes {files}, and {count} {are} given"));
        }
        let mut files = self.files.into_iter();
        let mut next = |taken| match taken {
            true => files.next().unwrap_or_default(),
            false => "-".into(),
        };
        Ok(Command {
            verb: form.verb,
            side: self.side,
            limit: self.limit.unwrap_or_default(),
            number: self.number.unwrap_or_default(),
            to: self.to,
            seed: self.seed.unwrap_or_default(),
            size: self.size.unwrap_or_default(),
            connectivity: self.connectivity.unwrap_or_default(),
            force: self.force,
            input: next(form.files != Files::Out),
            output: next(form.files != Files::In),
        })
    }
}

/// Refuses an option that was there before.
fn once(name: &str, first: bool) -> Result<(), String> {
    match first {
        true => Ok(()),
        false => Err(format!("{name} is given twice")),
    }
}

/// Puts the value of an option in its place, or says what is wrong with it.
fn take<T>(
    option: &str,
    word: impl FnOnce() -> Result<OsString, String>,
    known: impl FnOnce(&str) -> Option<T>,
    place: &mut Option<T>,
) -> Result<(), String> {
    let word = word()?;
    let (name, wrong) = value_words(option);
    let value = word.to_str().and_then(known);
    let value = value.ok_or_else(|| format!("the {name} {} is {wrong}", shown(&word)))?;
    once(option, place.replace(value).is_none())
}

/// What the value of an option is called, and what a word is that is none.
fn value_words(option: &str) -> (&str, &str) {
    match option {
        "--side" => ("side", "neither light nor dark"),
        "--limit" => ("limit", "not a whole number"),
        "--number" => ("number", "not a whole number"),
        "--to" => ("form", "neither old nor new"),
        "--seed" => ("seed", "not a whole number from 0 to 4294967295"),
        "--size" => ("size", "not WIDTHxHEIGHT, as 640x480"),
        _ => ("connectivity", "not 4, 6 or 8"),
    }
}

fn by_text<T: FromStr>(text: &str) -> Option<T> {
    text.parse().ok()
}

/// A whole number, of however many digits.
fn number(text: &str) -> Option<Number> {
    let whole = !text.is_empty() && text.bytes().all(|byte| byte.is_ascii_digit());
    whole.then(|| Number {
        number: text.parse().unwrap_or(u32::MAX),
        given: text.to_owned(),
    })
}

fn seed(text: &str) -> Option<u32> {
    by_text(&number(text)?.given)
}

fn size(text: &str) -> Option<Size> {
    let (width, height) = text.split_once('x')?;
    let (width, height) = (number(width)?, number(height)?);
    Some(Size { width, height })
}
