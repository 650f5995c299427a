// SPDX-License-Identifier: Apache-2.0 OR MIT
//! Names beside a journal. JOURNAL.who begins with the line `HPWHO 1 DEVICE`; then comes a line each time that a seat goes to a
//! thread, `PLACE SEAT PID TID COMM`, or is given back, `PLACE SEAT -`: from the entry at that place on.
use crate::calls::OF_THREAD;
use crate::following::Facts;
use anyhow::{ensure, Context, Result};
use std::collections::HashMap;
use std::fs::File;
use std::io::{BufRead, BufReader, ErrorKind, Read};
use std::rc::Rc;

const VERSION: &str = "HPWHO 1 ";
/// No line is longer: five numbers at most, and sixteen letters that take four bytes each.
const MOST: u64 = 256;

/// Who sits on a seat, as the system it was recorded on knows it.
#[derive(Clone, Debug, PartialEq, Eq)]
pub struct Person {
    pub pid: u32,
    /// None where the recorder doesn't know it.
    pub tid: Option<u32>,
    pub comm: Rc<str>,
}

/// What processes are called: as their first thread is, or else as the thread that was met first.
#[derive(Debug, Default)]
pub struct Comms(HashMap<u32, Rc<str>>);

impl Comms {
    pub fn learn(&mut self, facts: &Facts) {
        if let (Some(pid), Some(it)) = (facts.pid, &facts.person) {
            self.name(pid, it.tid == Some(it.pid), &it.comm);
        }
    }

    /// A process is called so by a thread, perhaps by its first one.
    pub fn name(&mut self, pid: u32, is_first: bool, comm: &Rc<str>) {
        if is_first {
            self.0.insert(pid, comm.clone());
        } else {
            self.0.entry(pid).or_insert_with(|| comm.clone());
        }
    }

    pub fn get(&self, pid: u32) -> Option<&str> {
        self.0.get(&pid).map(|it| &**it)
    }

    /// The words for a process, as `pid 812 "sensors"`.
    pub fn words(&self, pid: u32) -> String {
        let number = match pid & OF_THREAD {
            0 => format!("pid {pid}"),
            _ => format!("thread {}", pid & !OF_THREAD),
        };
        match self.get(pid) {
            Some(comm) => format!("{number} {comm:?}"),
            None => number,
        }
    }
}

#[derive(Debug, PartialEq, Eq)]
struct Change {
    place: u64,
    seat: u32,
    /// None where the seat is given back.
    person: Option<Person>,
}

/// The letters of a name; all but graphic ones and spaces stand as \xHH.
fn unescaped(word: &str) -> Option<String> {
    let mut bytes = Vec::new();
    let mut rest = word;
    while let Some(first) = rest.chars().next() {
        if first == '\\' {
            let digits = rest.strip_prefix("\\x")?.get(..2)?;
            bytes.push(u8::from_str_radix(digits, 16).ok()?);
            rest = &rest[4..];
        } else if first == ' ' || first.is_ascii_graphic() {
            bytes.push(first as u8);
            rest = &rest[1..];
        } else {
            return None;
        }
    }
    Some(String::from_utf8_lossy(&bytes).into_owned())
}

/// What a line says; None where it makes no sense.
fn change(line: &str) -> Option<Change> {
    let (place, rest) = line.split_once(' ')?;
    let (seat, rest) = rest.split_once(' ')?;
    let (place, seat) = (place.parse().ok()?, seat.parse().ok()?);
    if rest == "-" {
        return Some(Change { place, seat, person: None });
    }
    let (pid, rest) = rest.split_once(' ')?;
    let (tid, comm) = rest.split_once(' ')?;
    let (pid, tid) = (pid.parse().ok()?, tid.parse().ok()?);
    let person = Some(Person { pid, tid: Some(tid).filter(|it| *it != 0), comm: unescaped(comm)?.into() });
    Some(Change { place, seat, person })
}

/// The file with the names, as far as it has been read.
pub struct Who {
    path: String,
    lines: BufReader<File>,
    /// The line that is being read, of which there is perhaps only a part yet.
    line: Vec<u8>,
    number: u64,
    next: Option<Change>,
    /// The place at which the latest change stands.
    place: u64,
    pub sitting: HashMap<u32, Person>,
    /// Whether there is nothing more to be read, ever.
    is_over: bool,
    follows: bool,
}

/// The pid of who stands in for all that weren't recorded; Linux gives none so high.
pub const NOT_RECORDED: u32 = 0x00ff_ffff;

pub fn path_of(journal: &str) -> String {
    format!("{journal}.who")
}

impl Who {
    /// The names beside a journal; None where there are none.
    pub fn open(journal: &str, follows: bool) -> Result<Option<Who>> {
        let path = path_of(journal);
        let file = match File::open(&path) {
            Ok(file) => file,
            Err(error) if error.kind() == ErrorKind::NotFound => return Ok(None),
            Err(error) => return Err(error).context(path),
        };
        let mut who = Who {
            path,
            lines: BufReader::new(file),
            line: Vec::new(),
            number: 0,
            next: None,
            place: 0,
            sitting: HashMap::new(),
            is_over: false,
            follows,
        };
        let head = who.next_line()?.unwrap_or_default();
        ensure!(head.starts_with(VERSION), "{}: it doesn't begin as names do", who.path);
        Ok(Some(who))
    }

    /// The next whole line; None where there is none yet.
    fn next_line(&mut self) -> Result<Option<String>> {
        let room = MOST - self.line.len() as u64;
        (&mut self.lines).take(room).read_until(b'\n', &mut self.line).with_context(|| self.path.clone())?;
        let is_long = self.line.len() as u64 == MOST;
        ensure!(!is_long, "{}: line {} is longer than any can be", self.path, self.number + 1);
        if self.line.last() != Some(&b'\n') {
            return Ok(None);
        }
        self.line.pop();
        self.number += 1;
        let line = String::from_utf8_lossy(&self.line).into_owned();
        self.line.clear();
        Ok(Some(line))
    }

    fn next_change(&mut self) -> Result<Option<Change>> {
        let line = match self.next_line()? {
            Some(line) => line,
            None => {
                self.is_over = !self.follows;
                if self.is_over && !self.line.is_empty() {
                    eprintln!("hullpippin: {}: line {} broke off, and is left out", self.path, self.number + 1);
                }
                return Ok(None);
            }
        };
        let change = change(&line).filter(|it| it.place >= self.place);
        let words = || format!("{}: line {} makes no sense: {line:?}", self.path, self.number);
        let change = change.with_context(words)?;
        self.place = change.place;
        Ok(Some(change))
    }

    /// Has all that changed up to the entry at a place. What can't be read ends the file, and is an error once.
    pub fn advance(&mut self, place: u64) -> Result<()> {
        while !self.is_over || self.next.is_some() {
            if self.next.is_none() {
                let next = self.next_change();
                self.is_over |= next.is_err();
                self.next = next?;
            }
            match self.next.take() {
                Some(change) if change.place <= place => self.make(change),
                next => {
                    self.next = next;
                    return Ok(());
                }
            }
        }
        Ok(())
    }

    fn make(&mut self, change: Change) {
        match change.person {
            Some(person) => self.sitting.insert(change.seat, person),
            None => self.sitting.remove(&change.seat),
        };
    }
}

#[cfg(test)]
mod tests {
    use super::*;

    #[test]
    fn lines_are_read() {
        let person = Some(Person { pid: 812, tid: Some(815), comm: "Binder:812_1 x".into() });
        assert_eq!(change("4 1 812 815 Binder:812_1 x"), Some(Change { place: 4, seat: 1, person }));
        assert_eq!(
            change("4 1 812 0 x").and_then(|it| it.person).map(|it| it.tid),
            Some(None),
            "a tid that isn't known"
        );
        assert_eq!(change("9 1 -"), Some(Change { place: 9, seat: 1, person: None }));
        let strange = change(r"0 0 7 8 \x5c\x00\xc3\xa9").and_then(|it| it.person).expect("a person");
        assert_eq!(&*strange.comm, "\\\0é");
        assert_eq!(change("0 0 7 8 ").and_then(|it| it.person).map(|it| it.comm.len()), Some(0));
        for line in
            ["", "4", "4 1", "4 1 2", "4 1 2 3", "-1 1 -", "a 1 2 3 x", r"4 1 2 3 \x4", r"4 1 2 3 \q", "4 1 2 3 é"]
        {
            assert_eq!(change(line), None, "{line}");
        }
    }
}
