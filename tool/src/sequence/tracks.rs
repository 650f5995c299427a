// SPDX-License-Identifier: Apache-2.0 OR MIT
//! What the threads of the seats are doing, step by step, and the sheet on which that is drawn.
use super::labels::plain;
use super::model::{Doing, Event, Lane, Row, Sitter, Span, Thing};
use crate::following::{Facts, Space};
use std::collections::BTreeMap;
use std::rc::Rc;

/// What was drawn so far.
#[derive(Debug, Default)]
pub struct Sheet {
    pub things: Vec<Thing>,
    pub sitters: Vec<Sitter>,
    pub rows: u64,
    /// Whether the first entry that is drawn was come to.
    pub is_begun: bool,
}

impl Sheet {
    /// The next row; None as long as nothing is drawn.
    pub fn next_row(&self) -> Option<u64> {
        self.is_begun.then_some(self.rows)
    }

    /// Draws what an entry did, once anything is drawn.
    pub fn mark(&mut self, place: u64, seat: u32, event: Event) {
        if self.is_begun {
            self.things.push(Thing::Row(Row { place, seat, event }));
            self.rows += 1;
        }
    }

    fn turn(&mut self, thing: Thing) {
        if self.is_begun {
            self.things.push(thing);
        }
    }
}

/// A seat: the spans that its thread is in, the innermost last, and its lane, if it is drawn.
#[derive(Debug, Default)]
struct Track {
    pid: Option<u32>,
    spans: Vec<Span>,
    lane: Option<Lane>,
    /// Who was seen there last: the process's pid, and what the thread is called.
    sitter: Option<(u32, Option<Rc<str>>)>,
}

#[derive(Debug, Default)]
pub struct Tracks {
    seats: BTreeMap<u32, Track>,
}

/// Whether the thread is in this span still. Of the calls that a thread is in, those further in were made later.
fn is_in(span: &Span, process: Option<u64>, innermost: Option<u64>) -> bool {
    match span.doing {
        Doing::Gone => false,
        Doing::Idle => process == Some(span.since),
        Doing::Waits | Doing::Serves => innermost.map_or(false, |call| span.since <= call),
    }
}

impl Track {
    fn enter(&mut self, seat: u32, doing: Doing, since: u64, sheet: &mut Sheet) {
        let outer = self.spans.last().map_or(Doing::Gone, |it| it.doing);
        let span = Span { seat, doing, since, from: sheet.next_row(), depth: self.spans.len() as u64, outer };
        self.spans.push(span);
        sheet.turn(Thing::Begins(span));
    }

    /// Ends the spans that the thread isn't in any more, from the innermost on.
    fn leave(&mut self, process: Option<u64>, innermost: Option<u64>, sheet: &mut Sheet) {
        while let Some(span) = self.spans.last().copied().filter(|it| !is_in(it, process, innermost)) {
            self.spans.pop();
            sheet.turn(Thing::Ends(span));
        }
    }
}

impl Tracks {
    /// Gives the seat of an entry a lane, if it has none with a pid yet, and that lane its thread's name. Notes who sits there.
    pub fn see(&mut self, seat: u32, facts: &Facts, sheet: &mut Sheet) {
        let track = self.seats.entry(seat).or_default();
        if track.lane.as_ref().map_or(true, |it| it.pid.is_none()) {
            track.lane = Some(Lane { seat, pid: facts.pid, leader: seat, name: None });
        }
        if let (Some(lane), Some(person)) = (&mut track.lane, &facts.person) {
            if lane.pid == facts.pid {
                lane.name.get_or_insert_with(|| plain(&person.comm));
            }
        }
        let sitter = facts.pid.map(|pid| (pid, facts.person.as_ref().map(|it| it.comm.clone())));
        if let (Some((pid, comm)), true) = (&sitter, sitter != track.sitter) {
            sheet.sitters.push(Sitter { row: sheet.rows, seat, pid: *pid, name: comm.as_deref().map(plain) });
            track.sitter = sitter.clone();
        }
    }

    /// Goes along with what a seat's thread is in now.
    pub fn follow(&mut self, space: &Space, seat: u32, sheet: &mut Sheet) {
        let track = self.seats.entry(seat).or_default();
        let its = space.threads.get(seat).and_then(|it| space.processes.get(it.process));
        let innermost = its.and_then(|_| space.innermost(seat)).map(|it| it.0);
        let process = its.map(|it| it.by.0.unwrap_or(0));
        track.pid = its.map(|it| it.pid);
        track.leave(process, innermost, sheet);
        if let (Some(process), true) = (process, track.spans.is_empty()) {
            track.enter(seat, Doing::Idle, process, sheet);
        }
        let call = match innermost {
            Some(call) => call,
            None => return,
        };
        let is_known = track.spans.last().map_or(false, |it| it.doing != Doing::Idle && it.since == call);
        if !is_known {
            track.enter(seat, if space.served(seat).is_some() { Doing::Serves } else { Doing::Waits }, call, sheet);
        }
    }

    /// Follows the threads of all seats so.
    pub fn follow_all(&mut self, space: &Space, sheet: &mut Sheet) {
        let seats: Vec<u32> = self.seats.keys().copied().collect();
        seats.into_iter().for_each(|it| self.follow(space, it, sheet));
    }

    /// The first entry that is drawn is next: whoever has a thread has a lane, and what the threads are in goes on.
    pub fn begin(&mut self, sheet: &mut Sheet) {
        sheet.is_begun = true;
        for (seat, track) in self.seats.iter_mut().filter(|it| it.1.pid.is_some()) {
            track.lane = Some(Lane { seat: *seat, pid: track.pid, leader: *seat, name: None });
            track.spans.iter().for_each(|it| sheet.turn(Thing::Begins(*it)));
        }
    }

    /// Ends what threads are still in, those within others first.
    pub fn end(&self, sheet: &mut Sheet) {
        let mut spans: Vec<&Span> = self.seats.values().flat_map(|it| &it.spans).collect();
        spans.sort_by_key(|it| (it.from, it.since));
        spans.into_iter().rev().for_each(|it| sheet.turn(Thing::Ends(*it)));
    }

    /// The lanes; those of a process stand beside one another.
    pub fn lanes(self) -> Vec<Lane> {
        let mut lanes: Vec<Lane> = Vec::new();
        for lane in self.seats.into_values().filter_map(|it| it.lane) {
            let leader = lanes.iter().find(|it| it.pid == lane.pid).map_or(lane.seat, |it| it.seat);
            lanes.push(Lane { leader, ..lane });
        }
        lanes.sort_by_key(|it| it.leader);
        lanes
    }
}
