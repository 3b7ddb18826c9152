//! The command-line tool.

mod arguments;
mod commands;
mod failure;
mod formats;
mod header;
mod input;
mod names;
mod output;
mod progress;
mod rolls;
mod system;
mod target;
mod temporary;
mod words;

use std::panic;
use std::process::ExitCode;

use arguments::Request;
use failure::Failure;

#[global_allocator]
static MEMORY: system::MemoryOrEnd = system::MemoryOrEnd;

fn main() -> ExitCode {
    // a panic would be a slip in the tool; it says so itself, and the status stays one that is promised
    panic::catch_unwind(run).unwrap_or(ExitCode::from(3))
}

fn run() -> ExitCode {
    system::ignore_file_size();
    let request = arguments::parse(std::env::args_os().skip(1));
    match request.map_err(Failure::Usage).and_then(answer) {
        Ok(()) => ExitCode::SUCCESS,
        Err(failure) => {
            failure.report();
            failure.status()
        }
    }
}

fn answer(request: Request) -> Result<(), Failure> {
    match request {
        Request::Help => output::print(&|out| write!(out, "{}", arguments::help())),
        Request::Version => {
            output::print(&|out| writeln!(out, "livukoe {}", env!("CARGO_PKG_VERSION")))
        }
        Request::Run(command) => commands::run(&command),
    }
}
