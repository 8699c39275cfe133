//! A line on standard error while long work goes on. Where it cannot be written, the work goes on.

use super::output;
use std::io::{IsTerminal, Write};
use std::time::{Duration, Instant};

/// On a terminal the line is written over; elsewhere a new one comes every few seconds.
pub struct Progress {
    terminal: bool,
    last: Option<Instant>,
    width: usize,
}

const PAUSE: Duration = Duration::from_secs(3);

impl Progress {
    pub fn new() -> Progress {
        Progress { terminal: std::io::stderr().is_terminal(), last: None, width: 0 }
    }

    pub fn say(&mut self, text: &str) {
        if self.terminal {
            let mut err = std::io::stderr();
            let _ = write!(err, "\r{text:<width$}", width = self.width);
            let _ = err.flush();
            self.width = text.chars().count();
        } else if self.last.is_none_or(|last| last.elapsed() >= PAUSE) {
            output::tell(text);
            self.last = Some(Instant::now());
        }
    }
}

impl Drop for Progress {
    fn drop(&mut self) {
        if self.terminal && self.width > 0 {
            let _ = write!(std::io::stderr(), "\r{:width$}\r", "", width = self.width);
        }
    }
}
