//! How far work has come, shown where somebody may be waiting for it.

use std::fs;
use std::io::{stderr, Write};
use std::time::{Duration, Instant};

/// Nothing is shown before this has passed.
const PATIENCE: Duration = Duration::from_secs(1);

pub struct Progress {
    pause: Duration,
    last: Instant,
    next: Option<Instant>,
    /// The length of the line that is shown.
    shown: usize,
}

impl Progress {
    /// Shows something again only after a pause.
    pub fn start(pause: Duration) -> Progress {
        let last = Instant::now();
        let next = if error_is_a_terminal() { Some(last + PATIENCE) } else { None };
        Progress { pause, last, next, shown: 0 }
    }

    /// Where it is time, shows a line, which is made with the time since the last one, or since the start.
    pub fn at(&mut self, line: impl FnOnce(Duration) -> String) {
        let next = match self.next {
            Some(next) => next,
            None => return,
        };
        let now = Instant::now();
        if next <= now {
            let line = line(now - self.last);
            tell(&format!("\r{line:<width$}", width = self.shown));
            (self.last, self.next, self.shown) = (now, Some(now + self.pause), line.len());
        }
    }
}

/// The line is wiped, so that what follows has it for itself.
impl Drop for Progress {
    fn drop(&mut self) {
        if self.shown > 0 {
            tell(&format!("\r{:width$}\r", "", width = self.shown));
        }
    }
}

/// Nothing depends on whether it arrives.
fn tell(text: &str) {
    let _ = stderr().write_all(text.as_bytes()).and_then(|()| stderr().flush());
}

/// By the name of what is open there, since Rust 1.63 has no question for it.
fn error_is_a_terminal() -> bool {
    let open = fs::read_link("/proc/self/fd/2").unwrap_or_default();
    ["/dev/pts", "/dev/tty", "/dev/console"].iter().any(|name| open.to_string_lossy().starts_with(name))
}
