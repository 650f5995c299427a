// SPDX-License-Identifier: Apache-2.0 OR MIT
//! A range of a recording as a diagram.
use super::model::{Arrow, Diagram, End, Event, Kind, Target};
use super::tracks::{Sheet, Tracks};
use crate::codes::*;
use crate::following::{About, Facts, ObjectId, Space};
use crate::journal::{Answer, Entry, Step};
use crate::play::{Lies, Player, Range};
use crate::refusals::{Kind as ReasonKind, Reason};
use anyhow::Result;
use std::collections::HashMap;

/// F12: a reading that finds nothing leaves no mark.
const NOTHING_TO_READ: Reason = Reason { kind: ReasonKind::Fault, number: 12 };

#[derive(Default)]
struct Plot {
    tracks: Tracks,
    sheet: Sheet,
    arrows: Vec<Arrow>,
    /// How many one-way calls there were on each object.
    turns: HashMap<ObjectId, u32>,
}

impl Plot {
    fn step(&mut self, lies: Lies, entry: &Entry<'_>, space: &Space, facts: &Facts) {
        if lies == Lies::Within && !self.sheet.is_begun {
            self.tracks.begin(&mut self.sheet);
        }
        if self.sheet.is_begun {
            self.tracks.see(entry.seat, facts, &mut self.sheet);
        }
        self.follow(entry, space, facts);
        self.draw(entry, facts);
    }

    fn follow(&mut self, entry: &Entry<'_>, space: &Space, facts: &Facts) {
        let (tracks, sheet) = (&mut self.tracks, &mut self.sheet);
        let ends_calls = match &entry.step {
            Step::ExitThread | Step::ExitProcess => true,
            Step::Command { command, .. } => command.code.number == BC_REPLY,
            _ => false,
        };
        match (ends_calls, facts.caller) {
            (false, _) => tracks.follow(space, entry.seat, sheet),
            // A reply ends the call of who serves it and of who waits for it.
            (true, Some((caller, _))) => {
                let mut both = [entry.seat, caller];
                both.sort_unstable();
                both.into_iter().for_each(|it| tracks.follow(space, it, sheet));
            }
            (true, None) => tracks.follow_all(space, sheet),
        }
    }

    fn draw(&mut self, entry: &Entry<'_>, facts: &Facts) {
        let (place, seat) = (entry.place, entry.seat);
        match (&entry.answer, &entry.step) {
            (Answer::Accepted, Step::Command { command, .. }) => {
                if let Some(kind) = self.kind_of(command, facts) {
                    let index = self.arrows.len();
                    let sent = self.sheet.next_row();
                    self.arrows.push(Arrow { made: place, kind, sender: seat, sent, got: None });
                    self.sheet.mark(place, seat, Event::Sent(index));
                }
            }
            (Answer::Got { stream, .. }, _) => {
                for (message, about) in Returns(stream).flatten().zip(&facts.about) {
                    self.tell(place, seat, &message, about);
                }
            }
            (answer, step) => {
                if let Some(event) = event_of(answer, step) {
                    self.sheet.mark(place, seat, event);
                }
            }
        }
    }

    /// What an accepted command has sent, if it has.
    fn kind_of(&mut self, command: &Message, facts: &Facts) -> Option<Kind> {
        let record = command.record()?;
        if command.code.number == BC_REPLY {
            return Some(Kind::Reply { call: facts.answers? });
        }
        let (target, code) = (Target::Handle(record.handle()), record.code);
        if !record.is_one_way() {
            return Some(Kind::Call { target, code });
        }
        let turn = facts.object.map_or(0, |it| {
            let turn = self.turns.entry(it).or_insert(0);
            *turn += 1;
            *turn
        });
        Some(Kind::OneWay { target, code, turn })
    }

    /// Draws what it means that this return was read.
    fn tell(&mut self, place: u64, seat: u32, message: &Message, about: &About) {
        let cookie = if let Payload::Cookie(cookie) = message.payload { cookie } else { 0 };
        let event = match (message.code.number, about) {
            (BR_TRANSACTION | BR_REPLY, About::Sent(sent)) => return self.get(place, seat, sent.made),
            (BR_DEAD_BINDER, _) => Event::Death(Some(cookie)),
            (BR_DEAD_REPLY, _) => Event::DeadReply,
            (BR_FAILED_REPLY, _) => Event::FailedReply,
            (BR_ONEWAY_SPAM_SUSPECT, _) => Event::SpamSuspect,
            _ => return,
        };
        self.sheet.mark(place, seat, event);
    }

    /// What was made there was handed out.
    fn get(&mut self, place: u64, seat: u32, made: u64) {
        let found = self.arrows.binary_search_by_key(&made, |it| it.made);
        if let (Ok(index), Some(row)) = (found, self.sheet.next_row()) {
            self.arrows[index].got = Some(End { seat, row });
            self.sheet.mark(place, seat, Event::Got(index));
        }
    }

    fn finished(mut self) -> Diagram {
        self.tracks.end(&mut self.sheet);
        let Sheet { things, rows, sitters, .. } = self.sheet;
        Diagram { lanes: self.tracks.lanes(), sitters, things, arrows: self.arrows, rows }
    }
}

/// What a request was answered, but for what was read.
fn event_of(answer: &Answer<'_>, step: &Step<'_>) -> Option<Event> {
    Some(match (answer, step) {
        (Answer::Opened, Step::Open { pid, .. }) => Event::Opened(*pid),
        (Answer::Opened, Step::Attach { pid }) => Event::Attached(*pid),
        (Answer::Set, Step::Spam { on }) => Event::SpamSet(*on),
        (Answer::Set, _) => Event::ManagerSet,
        (Answer::Exited, Step::ExitThread) => Event::ThreadExit,
        (Answer::Exited, _) => Event::ProcessExit,
        (Answer::Refused(reason), _) if *reason != NOTHING_TO_READ => Event::Refused(*reason),
        _ => return None,
    })
}

/// What is drawn of a range.
pub fn plotted(player: &mut Player, range: Range) -> Result<Diagram> {
    let bounds = player.bounds(range)?;
    let mut plot = Plot::default();
    player.each_lying(&bounds, |lies, (entry, space, facts)| {
        plot.step(lies, entry, space, facts);
        Ok(())
    })?;
    Ok(plot.finished())
}
