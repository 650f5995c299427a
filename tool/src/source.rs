// SPDX-License-Identifier: Apache-2.0 OR MIT
//! Where entries come from: a file, a pipe, or a file that still grows. One entry is held at a time.
//!
//! Nothing is mapped into memory: who writes a recording may cut it, and a mapping of what is gone ends its reader.
use crate::journal::{entry, extent, Entry, Extent, Fault, Heading, Version, MARK_SIZE, VERSIONS};
use anyhow::{Context, Result};
use std::fs::File;
use std::io::{self, ErrorKind, Read, Seek, SeekFrom};
use std::os::unix::fs::FileExt;
use std::thread::sleep;
use std::time::Duration;

/// How much is asked of a file at once.
const ROOM: usize = 1 << 18;
/// How long one waits for a file to grow before the next look.
const PAUSE: Duration = Duration::from_millis(50);

/// How the entries ended.
#[derive(Clone, Copy, Debug, PartialEq, Eq)]
pub enum End {
    /// There were as many entries as the heading says.
    Whole,
    /// The journal is cut off behind so many whole entries; there are so many bytes of one more, from this byte on.
    CutOff { entries: u64, at: u64, rest: u64 },
}

enum Input {
    File(File),
    Stdin(io::Stdin),
}

impl Read for Input {
    fn read(&mut self, to: &mut [u8]) -> io::Result<usize> {
        match self {
            Input::File(file) => file.read(to),
            Input::Stdin(stdin) => stdin.read(to),
        }
    }
}

/// A journal that is being read.
pub struct Source {
    input: Input,
    heading: Heading,
    held: Vec<u8>,
    /// What of `held` was read from the input, and what of that was used.
    filled: usize,
    used: usize,
    /// The place of the next entry, and the byte at which it stands.
    place: u64,
    at: u64,
    /// Whether one waits at the end for more.
    follows: bool,
}

impl Source {
    /// Opens a file, or standard input for `-`.
    pub fn open(path: &str, follows: bool) -> Result<Source> {
        let input = match path {
            "-" => Input::Stdin(io::stdin()),
            _ => Input::File(File::open(path)?),
        };
        let heading = Heading { version: &VERSIONS[0], seats: 1, count: None };
        let mut source = Source { input, heading, held: Vec::new(), filled: 0, used: 0, place: 0, at: 0, follows };
        source.has(MARK_SIZE)?;
        let size = Version::of(&source.held[..source.filled])?.heading_size();
        source.has(size)?;
        source.heading = Heading::read(&source.held[..source.filled.min(size)])?;
        source.used = size;
        source.at = size as u64;
        Ok(source)
    }

    pub fn heading(&self) -> &Heading {
        &self.heading
    }

    /// The place of the next entry.
    pub fn place(&self) -> u64 {
        self.place
    }

    /// The byte of the file at which the next entry begins.
    pub fn at(&self) -> u64 {
        self.at
    }

    /// Goes on at an entry whose place and byte are known.
    pub fn seek(&mut self, place: u64, at: u64) -> Result<()> {
        match &mut self.input {
            Input::File(file) => file.seek(SeekFrom::Start(at))?,
            Input::Stdin(_) => anyhow::bail!("standard input has no places to go to"),
        };
        self.filled = 0;
        self.used = 0;
        self.place = place;
        self.at = at;
        Ok(())
    }

    /// Whether that is a file, which has an index beside it perhaps.
    pub fn is_file(&self) -> bool {
        matches!(self.input, Input::File(_))
    }

    /// Reads once more; false at the end of the input.
    fn fill(&mut self, wanted: usize) -> Result<bool> {
        if self.used > 0 {
            self.held.copy_within(self.used..self.filled, 0);
            self.filled -= self.used;
            self.used = 0;
        }
        // Memory grows with what the input bears out, whatever an entry claims to have.
        let room = wanted.min(self.filled + ROOM).max(ROOM);
        if self.held.len() < room {
            self.held.resize(room, 0);
        }
        loop {
            match self.input.read(&mut self.held[self.filled..]) {
                Ok(got) => {
                    self.filled += got;
                    return Ok(got > 0);
                }
                Err(error) if error.kind() == ErrorKind::Interrupted => {}
                Err(error) => return Err(error).context("it can't be read on"),
            }
        }
    }

    /// Whether so many bytes are there from the next entry on.
    fn has(&mut self, wanted: usize) -> Result<bool> {
        while self.filled - self.used < wanted {
            if !self.fill(wanted)? {
                return Ok(false);
            }
        }
        Ok(true)
    }

    /// How many bytes the next entry has; None where it isn't all there.
    fn extent(&mut self) -> Result<Option<usize>> {
        loop {
            match extent(&self.held[self.used..self.filled]) {
                Extent::Whole(size) => return Ok(Some(size)),
                Extent::Needs(wanted) if !self.has(wanted)? => return Ok(None),
                Extent::Needs(_) => {}
            }
        }
    }

    /// Whether the heading knows how many entries there are, and they have all been read.
    fn is_done(&self) -> bool {
        self.heading.count == Some(self.place)
    }

    /// Looks whether who writes has said meanwhile how many entries there are.
    fn look_again(&mut self) -> Result<()> {
        if let Input::File(file) = &self.input {
            let mut bytes = vec![0; self.heading.version.heading_size()];
            file.read_exact_at(&mut bytes, 0)?;
            self.heading = Heading::read(&bytes)?;
        }
        Ok(())
    }

    /// The next entry; None behind the last. `idle` is called before each wait for more.
    pub fn next_or(&mut self, mut idle: impl FnMut() -> Result<()>) -> Result<Option<Entry<'_>>> {
        let size = loop {
            if self.is_done() {
                return self.ended().map(|()| None);
            }
            if let Some(size) = self.extent()? {
                break size;
            }
            if !self.follows || !self.is_file() {
                return Ok(None);
            }
            idle()?;
            sleep(PAUSE);
            self.look_again()?;
        };
        let (from, place, at) = (self.used, self.place, self.at);
        self.used += size;
        self.place += 1;
        self.at += size as u64;
        Ok(Some(entry(&self.heading, place, at, &self.held[from..from + size])?))
    }

    pub fn next(&mut self) -> Result<Option<Entry<'_>>> {
        self.next_or(|| Ok(()))
    }

    /// Nothing may stand behind the last entry.
    fn ended(&mut self) -> Result<()> {
        if self.has(1)? {
            let what = format!("something stands behind the last of {} entries", self.place);
            return Err(Fault { at: self.at, what }.into());
        }
        Ok(())
    }

    /// How it ended, once there is no entry any more.
    pub fn end(&self) -> End {
        if self.is_done() {
            return End::Whole;
        }
        End::CutOff { entries: self.place, at: self.at, rest: (self.filled - self.used) as u64 }
    }
}
