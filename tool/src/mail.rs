// SPDX-License-Identifier: Apache-2.0 OR MIT
//! The mailboxes of seats, as a script has them: a line is handed over, run by whoever serves, and its answer collected; or it is
//! withdrawn before it is run.
use std::collections::BTreeMap;

/// What stands in a seat's mailbox.
#[derive(Debug)]
enum Mail<Line> {
    Posted(Line),
    Answered(String),
}

#[derive(Debug)]
pub struct Mailboxes<Line>(BTreeMap<u32, Mail<Line>>);

impl<Line> Mailboxes<Line> {
    pub fn new() -> Self {
        Mailboxes(BTreeMap::new())
    }

    /// Whether anything stands in a seat's mailbox, which has room for one line or one answer.
    pub fn has(&self, seat: u32) -> bool {
        self.0.contains_key(&seat)
    }

    /// Hands a line over. Answers what the script prints.
    pub fn post(&mut self, seat: u32, line: Line) -> String {
        self.0.insert(seat, Mail::Posted(line));
        "handed".into()
    }

    /// Takes all lines that are handed over, by their seats.
    pub fn take_posted(&mut self) -> Vec<(u32, Line)> {
        let mut posted = Vec::new();
        for (seat, mail) in std::mem::take(&mut self.0) {
            match mail {
                Mail::Posted(line) => posted.push((seat, line)),
                answered => {
                    self.0.insert(seat, answered);
                }
            }
        }
        posted
    }

    /// Puts the answer of a line that was run into its seat's mailbox.
    pub fn answer(&mut self, seat: u32, told: String) {
        self.0.insert(seat, Mail::Answered(told));
    }

    /// Collects an answer, or withdraws a line. Answers what the script prints; what can't be taken stays.
    pub fn fetch(&mut self, seat: u32, is_withdrawn: bool) -> String {
        match (self.0.remove(&seat), is_withdrawn) {
            (None, _) => "idle".into(),
            (Some(Mail::Answered(told)), false) => told,
            (Some(Mail::Posted(_)), true) => "back withdrawn".into(),
            (Some(mail), _) => {
                self.0.insert(seat, mail);
                "handed".into()
            }
        }
    }
}
