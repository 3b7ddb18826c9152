//! Progress of long work, on a terminal only.

use std::io::{self, IsTerminal, Write};
use std::sync::mpsc::{self, RecvTimeoutError, Sender};
use std::thread::{self, JoinHandle};
use std::time::{Duration, Instant};

/// Work that is shorter than this shows nothing.
const PATIENCE: Duration = Duration::from_millis(700);
const TICK: Duration = Duration::from_millis(200);

/// Shows what is being done, and for how long, until it is dropped.
pub struct Progress {
    shown: Option<(Sender<()>, JoinHandle<()>)>,
}

impl Progress {
    /// Begins to show progress where standard error is a terminal.
    pub fn of(doing: String) -> Progress {
        let shown = io::stderr().is_terminal().then(|| {
            let (done, over) = mpsc::channel();
            let shower = thread::Builder::new().spawn(move || {
                let began = Instant::now();
                let mut wait = PATIENCE;
                while let Err(RecvTimeoutError::Timeout) = over.recv_timeout(wait) {
                    show(&format!(
                        "livukoe: {doing}, {:.1} s",
                        began.elapsed().as_secs_f64()
                    ));
                    wait = TICK;
                }
                if began.elapsed() >= PATIENCE {
                    show("");
                }
            });
            Some((done, shower.ok()?)) // without a thread nothing is shown
        });
        Progress {
            shown: shown.flatten(),
        }
    }
}

impl Drop for Progress {
    fn drop(&mut self) {
        if let Some((done, shower)) = self.shown.take() {
            drop(done);
            let _ = shower.join(); // it only prints
        }
    }
}

/// Replaces the terminal's line.
fn show(line: &str) {
    let mut terminal = io::stderr().lock();
    let _ = write!(terminal, "\r\x1b[K{line}"); // a terminal that is gone shows nothing
    let _ = terminal.flush();
}
