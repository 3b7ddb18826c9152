//! Why a run failed, in one line, and the exit status.

use std::ffi::OsStr;
use std::io::{self, Write};
use std::process::ExitCode;

use livukoe::Refusal;

use crate::names;
use crate::words::{self, Facts};

pub enum Failure {
    /// The command line asks for nothing that can be done.
    Usage(String),
    /// A proved operation refused.
    Refused(String),
    /// A file could not be read or written.
    File(String),
    /// The reader of a pipe has read enough.
    BrokenPipe,
}

impl Failure {
    pub fn refused(name: &OsStr, refusal: Refusal, facts: &Facts) -> Failure {
        let (name, number) = (input(name), refusal.number());
        let words = words::of(refusal, facts);
        Failure::Refused(format!("{name}: refused {number}: {words}"))
    }

    pub fn reading(name: &OsStr, error: io::Error) -> Failure {
        Failure::File(format!("cannot read {}: {error}", input(name)))
    }

    pub fn too_long(name: &OsStr, most: u64) -> Failure {
        let name = input(name);
        Failure::File(format!("cannot read {name}: it has more than {most} bytes"))
    }

    pub fn writing(name: &OsStr, error: io::Error) -> Failure {
        if error.kind() == io::ErrorKind::BrokenPipe {
            return Failure::BrokenPipe;
        }
        let name = names::of_file(name, "standard output");
        Failure::File(format!("cannot write {name}: {error}"))
    }

    /// Says on standard error what went wrong. Where nothing can be said, the status says it.
    pub fn report(&self) {
        let line = match self {
            Failure::Usage(words) => format!("livukoe: {words}; see livukoe --help\n"),
            Failure::Refused(words) | Failure::File(words) => format!("livukoe: {words}\n"),
            Failure::BrokenPipe => return,
        };
        let _ = io::stderr().write_all(line.as_bytes());
    }

    pub fn status(&self) -> ExitCode {
        ExitCode::from(match self {
            Failure::Refused(_) => 1,
            Failure::Usage(_) => 2,
            Failure::File(_) | Failure::BrokenPipe => 3,
        })
    }
}

fn input(name: &OsStr) -> String {
    names::of_file(name, "standard input")
}
