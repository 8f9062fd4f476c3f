//! How far a long file has been read: on standard error, and only where that is a terminal.

use std::io::{IsTerminal, Write};
use std::time::{Duration, Instant};

use super::time::{clock, length};

pub struct Progress {
    total: u64,
    rate: u32,
    next: Instant,
    shown: bool,
}

/// The first line comes after this time, and so short files show none.
const PAUSE: Duration = Duration::from_millis(250);

impl Progress {
    pub fn new(total: Option<u64>, rate: u32) -> Option<Progress> {
        let total = total.filter(|_| std::io::stderr().is_terminal())?;
        Some(Progress {
            total,
            rate,
            next: Instant::now() + PAUSE,
            shown: false,
        })
    }

    pub fn at(&mut self, received: u64, rows: usize) {
        let now = Instant::now();
        if now < self.next {
            return;
        }
        self.next = now + PAUSE;
        self.shown = true;
        let sound = |samples| clock(length(samples, self.rate));
        // What cannot be shown is no reason to stop.
        let _ = write!(
            std::io::stderr(),
            "\r{:3} %, {} of {}, segments: {rows} ",
            received * 100 / self.total.max(1),
            sound(received),
            sound(self.total),
        );
    }
}

/// The line goes away, whatever comes after it.
impl Drop for Progress {
    fn drop(&mut self) {
        if self.shown {
            let _ = write!(std::io::stderr(), "\r\x1b[K");
        }
    }
}
