// SPDX-License-Identifier: Apache-2.0 OR MIT
//! How far a journal is read, on one line of standard error, for who asks for it.
use crate::out::is_terminal;
use std::io::{self, Write};
use std::sync::atomic::{AtomicBool, Ordering};
use std::time::{Duration, Instant};

/// After how long it is told anew, and how many entries go by between two looks at the clock.
const PAUSE: Duration = Duration::from_millis(200);
const BETWEEN: u64 = 1024;

static IS_WANTED: AtomicBool = AtomicBool::new(false);

/// Has every journal that is opened from now on tell it.
pub fn want(is_wanted: bool) {
    IS_WANTED.store(is_wanted, Ordering::Relaxed);
}

#[derive(Debug)]
pub struct Progress {
    begun: Instant,
    told: Instant,
    entries: u64,
    count: Option<u64>,
    is_terminal: bool,
}

impl Progress {
    /// None where nobody wants it.
    pub fn new() -> Option<Progress> {
        IS_WANTED.load(Ordering::Relaxed).then(|| {
            let (now, is_terminal) = (Instant::now(), is_terminal(&io::stderr()));
            Progress { begun: now, told: now, entries: 0, count: None, is_terminal }
        })
    }

    fn words(&self) -> String {
        let seconds = self.begun.elapsed().as_secs_f64();
        let of = self.count.map_or(String::new(), |it| format!(" of {it}"));
        let entries = self.entries;
        format!("{entries}{of} entries, {:.0} a second", entries as f64 / seconds.max(0.001))
    }

    /// An entry was read, of so many if that is known.
    pub fn step(&mut self, count: Option<u64>) {
        self.entries += 1;
        self.count = count;
        if !self.is_terminal || self.entries % BETWEEN > 0 || self.told.elapsed() < PAUSE {
            return;
        }
        self.told = Instant::now();
        // Who can't be told goes without.
        let _ = write!(io::stderr(), "\r{}\x1b[K", self.words());
    }
}

impl Drop for Progress {
    fn drop(&mut self) {
        let begin = if self.is_terminal { "\r" } else { "" };
        let end = if self.is_terminal { "\x1b[K" } else { "" };
        let _ = writeln!(io::stderr(), "{begin}{}{end}", self.words());
    }
}
