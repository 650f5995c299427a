// SPDX-License-Identifier: Apache-2.0 OR MIT
//! A range of a kernel's trace as a diagram. A lane is a thread's, and is there from its first mark on.
use super::labels::plain;
use super::model::{Arrow, Diagram, Doing, End, Event as Mark, Kind, Lane, Row, Span, Target, Thing};
use crate::calls::{Call, Event, Why, OF_THREAD};
use crate::kernel::following::Following;
use crate::kernel::trace::{Seen, Trace};
use crate::play::Range;
use anyhow::Result;
use std::collections::{BTreeMap, HashMap};

#[derive(Default)]
struct Plot {
    things: Vec<Thing>,
    arrows: Vec<Arrow>,
    rows: u64,
    lanes: BTreeMap<u32, Lane>,
    /// What each thread is in, the innermost last.
    spans: HashMap<u32, Vec<Span>>,
    /// The arrows of calls and of replies to them, by the place of the call.
    calls: HashMap<u64, usize>,
    replies: HashMap<u64, usize>,
    /// How many one-way calls there were on each node.
    turns: HashMap<u64, u32>,
}

impl Plot {
    fn row(&mut self, place: u64, seat: u32, event: Mark) {
        self.things.push(Thing::Row(Row { place, seat, event }));
        self.rows += 1;
    }

    fn enter(&mut self, seat: u32, doing: Doing, since: u64) {
        let spans = self.spans.entry(seat).or_default();
        let outer = spans.last().map_or(Doing::Gone, |it| it.doing);
        let span = Span { seat, doing, since, from: Some(self.rows), depth: spans.len() as u64, outer };
        spans.push(span);
        self.things.push(Thing::Begins(span));
    }

    /// Ends what a thread was doing since a place, and all that lies within it.
    fn leave(&mut self, seat: u32, doing: Doing, since: u64) {
        let spans = self.spans.entry(seat).or_default();
        if let Some(at) = spans.iter().rposition(|it| it.doing == doing && it.since == since) {
            let ended: Vec<Span> = spans.drain(at..).rev().collect();
            self.things.extend(ended.into_iter().map(Thing::Ends));
        }
    }

    fn meet(&mut self, event: &Event, following: &Following) {
        let doing = event.doing();
        if !self.spans.contains_key(&doing.seat) {
            self.enter(doing.seat, Doing::Idle, doing.place);
        }
        let pid = Some(doing.pid).filter(|it| it & OF_THREAD == 0);
        let name = Some(plain(&following.threads.comm(doing.seat))).filter(|it| !it.is_empty());
        self.lanes.insert(doing.seat, Lane { seat: doing.seat, pid, leader: doing.seat, name });
    }

    fn sent(&mut self, place: u64, seat: u32, kind: Kind) -> usize {
        let index = self.arrows.len();
        self.arrows.push(Arrow { made: place, kind, sender: seat, sent: Some(self.rows), got: None });
        self.row(place, seat, Mark::Sent(index));
        index
    }

    fn got(&mut self, place: u64, seat: u32, index: Option<usize>) {
        if let Some(index) = index {
            self.arrows[index].got = Some(End { seat, row: self.rows });
            self.row(place, seat, Mark::Got(index));
        }
    }

    fn kind_of(&mut self, call: &Call) -> Kind {
        let node = call.object.map_or(0, |it| it.place);
        let (target, code) = (Target::Node(node), call.code);
        if !call.one_way {
            return Kind::Call { target, code };
        }
        let turn = self.turns.entry(node).or_insert(0);
        *turn += 1;
        Kind::OneWay { target, code, turn: *turn }
    }

    fn event(&mut self, event: &Event, following: &Following) {
        self.meet(event, following);
        let doing = event.doing();
        let (place, seat) = (doing.place, doing.seat);
        match event {
            Event::Made(call) => {
                let kind = self.kind_of(call);
                let index = self.sent(place, seat, kind);
                self.calls.insert(place, index);
                if !call.one_way {
                    self.enter(seat, Doing::Waits, place);
                }
            }
            Event::Taken(call) => {
                let index = self.calls.remove(&call.made.place);
                self.got(place, seat, index);
                if !call.one_way {
                    self.enter(seat, Doing::Serves, call.made.place);
                }
            }
            Event::Replied(call) => {
                let made = call.made.place;
                let index = self.sent(place, seat, Kind::Reply { call: made });
                self.replies.insert(made, index);
                self.leave(seat, Doing::Serves, made);
            }
            Event::Done(call, _) => {
                let index = self.replies.remove(&call.made.place);
                self.got(place, seat, index);
                self.leave(seat, Doing::Waits, call.made.place);
            }
            Event::Failed(call, _, name) => {
                self.row(place, seat, mark_of(name));
                self.leave(seat, Doing::Waits, call.made.place);
            }
            Event::Refused(_, Why::Returned(name)) => self.row(place, seat, mark_of(name)),
            Event::Refused(_, Why::Reason(reason)) => self.row(place, seat, Mark::Refused(*reason)),
            Event::Died(..) => self.row(place, seat, Mark::Death(None)),
            Event::Freed(..) => {}
        }
    }

    fn finished(mut self) -> Diagram {
        let mut left: Vec<Span> = self.spans.into_values().flatten().collect();
        left.sort_by_key(|it| (it.from, it.depth));
        self.things.extend(left.into_iter().rev().map(Thing::Ends));
        let mut lanes: Vec<Lane> = Vec::new();
        for lane in self.lanes.into_values() {
            let first = lanes.iter().find(|it| it.pid.is_some() && it.pid == lane.pid).map(|it| it.leader);
            lanes.push(Lane { leader: first.unwrap_or(lane.seat), ..lane });
        }
        lanes.sort_by_key(|it| it.leader);
        Diagram { lanes, sitters: Vec::new(), things: self.things, arrows: self.arrows, rows: self.rows }
    }
}

fn mark_of(name: &str) -> Mark {
    match name {
        "BR_DEAD_REPLY" => Mark::DeadReply,
        _ => Mark::FailedReply,
    }
}

/// What is drawn of a range, and whether the trace ended as it should.
pub fn plotted(trace: &mut Trace, range: Range) -> (Diagram, Result<()>) {
    let mut plot = Plot::default();
    let done = trace.each(range, |seen, following| {
        if let Seen::Event(event) = seen {
            plot.event(event, following);
        }
        Ok(())
    });
    (plot.finished(), done)
}
