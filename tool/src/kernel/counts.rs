// SPDX-License-Identifier: Apache-2.0 OR MIT
//! The driver's file `stats`: how often what was done, of all processes and of each.
use super::lines::{number, number_u32, shown, words, Lines};
use anyhow::{bail, Result};
use std::io::{self, Write};

/// More lines than this has no such file.
const MOST: usize = 1 << 19;

/// What the driver has counted: of one process, or of all.
#[derive(Clone, Debug, Default, PartialEq, Eq)]
pub struct Counts {
    /// None of all processes together.
    pub pid: Option<u32>,
    pub context: String,
    /// Commands and returns with how often they were.
    pub verbs: Vec<(String, u64)>,
    /// All else, in the kernel's words.
    pub rest: Vec<String>,
}

fn line_of(found: &mut Vec<Counts>, line: &[u8]) -> Option<()> {
    let words: Vec<&[u8]> = words(line).collect();
    let first = match words.first() {
        Some(first) => *first,
        None => return Some(()),
    };
    // All processes' line is `proc: active 2 total 5`, one's is `proc 114`.
    if first == b"proc" {
        found.push(Counts { pid: Some(number_u32(words.get(1)?)?), ..Counts::default() });
        return Some(());
    }
    if line == b"binder stats:" {
        found.push(Counts::default());
        return Some(());
    }
    let counts = found.last_mut()?;
    let is_verb = first.starts_with(b"BC_") || first.starts_with(b"BR_");
    if first == b"context" {
        counts.context = String::from_utf8_lossy(words.get(1)?).into_owned();
    } else if let (true, Some(name)) = (is_verb, first.strip_suffix(b":")) {
        counts.verbs.push((String::from_utf8_lossy(name).into_owned(), number(words.get(1)?)?));
    } else {
        let text = String::from_utf8_lossy(line).trim().to_string();
        counts.rest.push(text.chars().filter(|it| !it.is_control()).collect());
    }
    Some(())
}

/// Reads a file's lines; what makes no sense is named.
pub fn read(lines: &mut Lines<'_>) -> Result<Vec<Counts>> {
    let mut found = Vec::new();
    while let Some(line) = lines.next()? {
        if line_of(&mut found, line).is_none() {
            let line = shown(line);
            bail!("line {} makes no sense among stats: {line}", lines.number());
        }
        if lines.number() > MOST as u64 {
            bail!("it has more than {MOST} lines, which no stats of a kernel's have");
        }
    }
    lines.check_end()?;
    Ok(found)
}

/// Prints them, processes with most commands first.
pub fn put(to: &mut Vec<u8>, all: &[Counts]) -> io::Result<()> {
    let (whole, mut processes): (Vec<_>, Vec<_>) = all.iter().partition(|it| it.pid.is_none());
    let sum = |it: &Counts| it.verbs.iter().fold(0u64, |sum, it| sum.saturating_add(it.1));
    processes.sort_by_key(|it| (std::cmp::Reverse(sum(it)), it.pid));
    for it in whole.into_iter().chain(processes) {
        match it.pid {
            Some(pid) => writeln!(to, "\npid {pid}, {}", it.context)?,
            None => writeln!(to, "all processes, since the driver began")?,
        }
        for (name, count) in &it.verbs {
            writeln!(to, "{count:>10}  {name}")?;
        }
        it.rest.iter().try_for_each(|it| writeln!(to, "            {it}"))?;
    }
    Ok(())
}

#[cfg(test)]
mod tests {
    use super::*;

    fn of(text: &str) -> Result<Vec<Counts>> {
        read(&mut Lines::new(Box::new(text.as_bytes())))
    }

    #[test]
    fn counts_are_read_and_told_by_process() {
        let text = "binder stats:\nBC_REPLY: 7\nproc: active 2 total 5\nproc 114\ncontext binder\n  threads: 1\n  BC_REPLY: 1\nproc 112\ncontext binder\n  BC_REPLY: 6\n";
        let found = of(text).unwrap();
        assert_eq!(found.len(), 3);
        assert_eq!(
            (found[1].pid, &found[1].context[..], &found[1].rest[..]),
            (Some(114), "binder", &["threads: 1".to_string()][..])
        );
        let mut told = Vec::new();
        put(&mut told, &found).unwrap();
        let wanted = "all processes, since the driver began\n         7  BC_REPLY\n            proc: active 2 total 5\n\npid 112, binder\n         6  BC_REPLY\n\npid 114, binder\n         1  BC_REPLY\n            threads: 1\n";
        assert_eq!(String::from_utf8(told).unwrap(), wanted);
    }

    #[test]
    fn what_makes_no_sense_is_named() {
        assert_eq!(
            of("binder stats:\nBC_REPLY: x\n").unwrap_err().to_string(),
            "line 2 makes no sense among stats: \"BC_REPLY: x\""
        );
        assert_eq!(of("threads: 1\n").unwrap_err().to_string(), "line 1 makes no sense among stats: \"threads: 1\"");
    }
}
