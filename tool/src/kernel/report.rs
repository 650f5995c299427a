// SPDX-License-Identifier: Apache-2.0 OR MIT
//! What a bug report has of the driver's files. dumpstate writes each behind a heading, `------ BINDER STATE (PATH: DATE) ------`, and
//! ends it by how long that took, `------ 0.012s was the duration of 'BINDER STATE' ------`; so it is known, and no report of a phone
//! was at hand.
use super::lines::Lines;
use anyhow::{bail, ensure, Result};

/// No more is kept of a part.
const MOST_PART: usize = 1 << 26;

/// Parts by their headings.
const HEADINGS: [(&str, Part); 5] = [
    ("BINDER FAILED TRANSACTION LOG", Part::Failed),
    ("BINDER TRANSACTION LOG", Part::Log),
    ("BINDER TRANSACTIONS", Part::Transactions),
    ("BINDER STATS", Part::Stats),
    ("BINDER STATE", Part::State),
];

#[derive(Clone, Copy, Debug, PartialEq, Eq)]
pub enum Part {
    State,
    Stats,
    Transactions,
    Log,
    Failed,
}

impl Part {
    pub fn name(self) -> &'static str {
        HEADINGS.iter().find(|it| it.1 == self).map_or("?", |it| it.0)
    }
}

/// The part that a line begins, if it is the heading of one.
fn heading(line: &[u8]) -> Option<Part> {
    let rest = line.strip_prefix(b"------ ")?;
    let is = |name: &str| rest.strip_prefix(name.as_bytes()).map_or(false, |it| it.starts_with(b" ("));
    HEADINGS.iter().find(|it| is(it.0)).map(|it| it.1)
}

/// Takes the parts out of a report's text: the first of each kind.
pub fn parts(lines: &mut Lines<'_>) -> Result<Vec<(Part, Vec<u8>)>> {
    let mut found: Vec<(Part, Vec<u8>)> = Vec::new();
    let mut is_within = false;
    while let Some(line) = lines.next()? {
        if line.starts_with(b"------ ") {
            let part = heading(line).filter(|it| found.iter().all(|known| known.0 != *it));
            is_within = part.is_some();
            found.extend(part.map(|it| (it, Vec::new())));
        } else if let (true, Some((part, text))) = (is_within, found.last_mut()) {
            // dumpstate says so where it couldn't read a file.
            if line.starts_with(b"*** ") {
                is_within = false;
                continue;
            }
            text.extend(line);
            text.push(b'\n');
            ensure!(text.len() < MOST_PART, "its part {} has more than {MOST_PART} bytes", part.name());
        }
    }
    // A part that is cut is known as one by its own last line.
    ensure!(!found.is_empty() || lines.check_end().is_ok(), "it breaks off before any part of Binder's");
    if lines.check_end().is_err() && is_within {
        bail!("it breaks off within {}", found.last().map_or("?", |it| it.0.name()));
    }
    Ok(found)
}

#[cfg(test)]
mod tests {
    use super::*;

    const TEXT: &str = "\
== dumpstate: 2026-11-29 05:20:07
------ UPTIME (uptime) ------
------ BINDER FAILED TRANSACTION LOG (/dev/binderfs/binder_logs/failed_transaction_log: 2026-11-29 05:20:07) ------
*** Error dumping /dev/binderfs/binder_logs/failed_transaction_log
------ BINDER STATE (/sys/kernel/debug/binder/state) ------
binder state:
proc 5
------ 0.012s was the duration of 'BINDER STATE' ------
else
------ BINDER STATE (/sys/kernel/debug/binder/state) ------
again
";

    fn of(text: &str) -> Result<Vec<(Part, Vec<u8>)>> {
        parts(&mut Lines::new(Box::new(text.as_bytes())))
    }

    #[test]
    fn parts_stand_between_their_headings() {
        let found = of(TEXT).unwrap();
        assert_eq!(found, [(Part::Failed, vec![]), (Part::State, b"binder state:\nproc 5\n".to_vec())]);
    }

    #[test]
    fn a_report_that_breaks_off_is_told() {
        let at = TEXT.find("proc 5").expect("a process");
        assert_eq!(of(&TEXT[..at + 3]).unwrap_err().to_string(), "it breaks off within BINDER STATE");
        assert_eq!(of(&TEXT[..at + 7]).unwrap().len(), 2, "what is cut between lines may be whole");
        assert_eq!(of(&TEXT[..9]).unwrap_err().to_string(), "it breaks off before any part of Binder's");
    }
}
