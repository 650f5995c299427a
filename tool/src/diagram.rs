// SPDX-License-Identifier: Apache-2.0 OR MIT
//! A recording as one page of HTML that stands alone: a lane for each thread's life, arrows for calls and replies, bars for what
//! is served and waited for. The page draws only what is seen of it, so a long recording can be looked at too.
use crate::calls::{Back, Call, Calls, Doing, Event, Objects};
use crate::following::Facts;
use crate::journal::{Answer, Entry, Step};
use crate::kernel::trace::{Seen, Trace};
use crate::out::Out;
use crate::play::{Player, Range};
use crate::show::method_code_words;
use crate::times::{duration_words, Moment};
use anyhow::Result;
use serde::Serialize;
use std::collections::HashMap;

const PAGE: &str = include_str!("diagram.html");
/// What stands in the page where its data belong.
const DATA: &str = "/*DATA*/";

/// The lane of a thread, as long as the thread lives.
#[derive(Clone, Debug, Serialize)]
struct Lane {
    pid: u32,
    seat: u32,
    /// What its thread is called, where that is known.
    #[serde(skip_serializing_if = "Option::is_none")]
    name: Option<String>,
    /// Where it begins; None where that lies before the range.
    from: Option<u64>,
    to: Option<u64>,
}

/// What is drawn over the lanes.
#[derive(Debug, Serialize)]
#[serde(rename_all = "lowercase")]
enum Mark<'a> {
    /// From a lane at a place to another at a later one; None where nobody has read it.
    Arrow { kind: &'static str, from: (usize, u64), to: Option<(usize, u64)>, text: &'a str },
    /// A bar along a lane, between two places; None where what it stands for goes on.
    Bar { kind: &'static str, lane: usize, from: u64, to: Option<u64>, text: &'a str },
    /// A dot on a lane, at one place.
    Dot { kind: &'static str, lane: usize, at: u64, text: &'a str },
}

struct Drawing<'a> {
    out: &'a mut Out,
    lanes: Vec<Lane>,
    /// The lane of each live thread, by its pid and seat.
    live: HashMap<(u32, u32), usize>,
    /// The lane at a place where an open call was made, taken or replied to: its thread may have ended by the time it is drawn.
    kept: HashMap<u64, usize>,
    is_first: bool,
}

impl Drawing<'_> {
    fn put(&mut self, mark: &Mark<'_>) -> Result<()> {
        self.out.held.extend(if self.is_first { &b"\n"[..] } else { &b",\n"[..] });
        self.is_first = false;
        let from = self.out.held.len();
        serde_json::to_writer(&mut self.out.held, mark)?;
        escape(&mut self.out.held, from);
        Ok(self.out.pass()?)
    }

    fn lane(&mut self, pid: u32, seat: u32, from: Option<u64>) -> usize {
        let lanes = &mut self.lanes;
        *self.live.entry((pid, seat)).or_insert_with(|| {
            lanes.push(Lane { pid, seat, name: None, from, to: None });
            lanes.len() - 1
        })
    }

    fn lane_of(&mut self, doing: Doing) -> usize {
        match self.kept.get(&doing.place) {
            Some(lane) => *lane,
            None => self.lane(doing.pid, doing.seat, None),
        }
    }

    fn keep(&mut self, doing: Doing) {
        let lane = self.lane_of(doing);
        self.kept.insert(doing.place, lane);
    }

    fn dot(&mut self, kind: &'static str, lane: usize, at: u64, text: &str) -> Result<()> {
        self.put(&Mark::Dot { kind, lane, at, text })
    }

    fn arrow(&mut self, kind: &'static str, from: Doing, to: Option<Doing>, text: &str) -> Result<()> {
        let from = (self.lane_of(from), from.place);
        let to = to.map(|it| (self.lane_of(it), it.place));
        self.put(&Mark::Arrow { kind, from, to, text })
    }

    fn bar(&mut self, kind: &'static str, from: Doing, to: Option<u64>, text: &str) -> Result<()> {
        let lane = self.lane_of(from);
        self.put(&Mark::Bar { kind, lane, from: from.place, to, text })
    }

    /// A call that has ended, or is still open at the end.
    fn call(&mut self, call: &Call, ended: Option<Doing>, objects: &dyn Objects) -> Result<()> {
        let object = call.object.map_or(String::new(), |it| objects.words(it));
        let took = ended.and_then(|it| it.since(call.made));
        let took = took.map_or(String::new(), |it| format!(", {}", duration_words(it)));
        let at = at_words(call.made.time);
        let size = call.size.map_or(String::new(), |it| format!(" {it} bytes"));
        let code = method_code_words(call.object.and_then(|it| objects.interface(it)), call.code);
        let text = format!("{object} {code}{size}{at}{took}");
        let kind = if call.one_way { "oneway" } else { "call" };
        self.arrow(kind, call.made, call.taken, &text)?;
        let replied = call.replied.map(|it| it.0);
        if !call.one_way {
            self.bar("waits", call.made, ended.map(|it| it.place), &text)?;
        }
        if let Some(taken) = call.taken {
            let end = replied.or_else(|| ended.filter(|_| call.one_way)).map(|it| it.place);
            self.bar("serves", taken, end, &text)?;
        }
        if let Some((replied, Back::Reply(_))) = call.replied {
            self.arrow("reply", replied, ended, &text)?;
        }
        for doing in [Some(call.made), call.taken, replied].into_iter().flatten() {
            self.kept.remove(&doing.place);
        }
        Ok(())
    }

    fn event(&mut self, event: &Event, objects: &dyn Objects) -> Result<()> {
        match event {
            Event::Refused(doing, reason) => {
                let lane = self.lane_of(*doing);
                self.dot("refused", lane, doing.place, &format!("{}{}", reason.words(), at_words(doing.time)))
            }
            Event::Done(call, doing) | Event::Freed(call, doing) => self.call(call, Some(*doing), objects),
            Event::Failed(call, doing, name) => {
                let lane = self.lane_of(*doing);
                let text = format!("{name}: no reply to the call at {}{}", call.made.place, at_words(doing.time));
                self.dot("noreply", lane, doing.place, &text)?;
                self.call(call, Some(*doing), objects)
            }
            Event::Died(doing, name) => {
                let lane = self.lane_of(*doing);
                self.dot("death", lane, doing.place, &format!("{name}{}", at_words(doing.time)))
            }
            Event::Made(call) | Event::Taken(call) | Event::Replied(call) => {
                self.keep(call.replied.map(|it| it.0).or(call.taken).unwrap_or(call.made));
                Ok(())
            }
        }
    }

    /// Threads that come and go, and what they are called.
    fn entry(&mut self, entry: &Entry<'_>, facts: &Facts) -> Result<()> {
        let pid = match facts.pid {
            Some(pid) => pid,
            None => return Ok(()),
        };
        self.life(entry, pid, facts.time)?;
        if let (Some(person), Some(lane)) = (&facts.person, self.live.get(&(pid, entry.seat))) {
            self.lanes[*lane].name.get_or_insert_with(|| match person.tid {
                Some(tid) => format!("{} {tid}", person.comm),
                None => person.comm.to_string(),
            });
        }
        Ok(())
    }

    fn life(&mut self, entry: &Entry<'_>, pid: u32, time: Option<Moment>) -> Result<()> {
        let place = entry.place;
        match (&entry.step, &entry.answer) {
            (_, Answer::Opened) => {
                let lane = self.lane(pid, entry.seat, Some(place));
                self.dot("life", lane, place, &format!("{} pid {pid}{}", entry.step.name(), at_words(time)))
            }
            (Step::Manager, Answer::Set) => {
                let lane = self.lane(pid, entry.seat, None);
                self.dot("life", lane, place, "manager")
            }
            // Refused calls and replies are events; a read that finds nothing is no news.
            (Step::Command { command, .. }, Answer::Refused(it)) if command.record().is_none() => {
                let lane = self.lane(pid, entry.seat, None);
                let text = format!("{} {}: {}{}", it.name(), it.word(), it.text(), at_words(time));
                self.dot("refused", lane, place, &text)
            }
            (Step::ExitThread, Answer::Exited) => self.ends(place, |it| *it == (pid, entry.seat)),
            (Step::ExitProcess, Answer::Exited) => self.ends(place, |it| it.0 == pid),
            _ => Ok(()),
        }
    }

    fn ends(&mut self, place: u64, which: impl Fn(&(u32, u32)) -> bool) -> Result<()> {
        let mut ended: Vec<_> = self.live.keys().copied().filter(which).collect();
        ended.sort_unstable();
        for thread in ended {
            if let Some(lane) = self.live.remove(&thread) {
                self.lanes[lane].to = Some(place);
                self.dot("life", lane, place, "ends")?;
            }
        }
        Ok(())
    }
}

/// When something was, behind what it was.
fn at_words(time: Option<Moment>) -> String {
    time.map_or(String::new(), |it| format!(", at {}", it.of_day()))
}

/// Nothing in the data may look like the end of the script that they stand in.
fn escape(held: &mut Vec<u8>, from: usize) {
    if held[from..].contains(&b'<') {
        let safe = String::from_utf8_lossy(&held[from..]).replace('<', "\\u003c");
        held.truncate(from);
        held.extend(safe.into_bytes());
    }
}

/// What stands in the page before and behind its data.
fn around() -> (&'static str, &'static str) {
    PAGE.split_once(DATA).unwrap_or((PAGE, ""))
}

impl Drawing<'_> {
    fn new(out: &mut Out) -> Drawing<'_> {
        out.held.extend(around().0.as_bytes());
        out.held.extend(b"{\"marks\":[");
        Drawing { out, lanes: Vec::new(), live: HashMap::new(), kept: HashMap::new(), is_first: true }
    }

    /// Writes the lanes, and ends the page.
    fn end(self, from: u64, to: u64) -> Result<()> {
        let from_here = self.out.held.len();
        self.out.held.extend(b"\n],\"lanes\":");
        serde_json::to_writer(&mut self.out.held, &self.lanes)?;
        escape(&mut self.out.held, from_here);
        self.out.held.extend(format!(",\"from\":{from},\"to\":{to}}}").into_bytes());
        self.out.held.extend(around().1.as_bytes());
        Ok(())
    }
}

/// Writes the page of a kernel's trace.
pub fn put_trace(trace: &mut Trace, range: Range, out: &mut Out) -> Result<()> {
    let mut drawing = Drawing::new(out);
    let mut last = range.from;
    let done = trace.each(range, |seen, following| {
        let event = match seen {
            Seen::Event(event) => event,
            _ => return Ok(()),
        };
        let doing = event.doing();
        last = last.max(doing.place);
        drawing.event(event, following)?;
        let lane = drawing.lane_of(doing);
        drawing.lanes[lane].name = Some(format!("{} {}", following.threads.comm(doing.seat), doing.seat));
        Ok(())
    });
    let following = &trace.reader.following;
    following.left().try_for_each(|it| drawing.call(it, None, following))?;
    drawing.end(range.from, last + 1)?;
    done
}

/// Writes the page of a range.
pub fn put(player: &mut Player, range: Range, out: &mut Out) -> Result<()> {
    let mut calls = Calls::default();
    let mut drawing = Drawing::new(out);
    player.each(range, |entry, space, facts| {
        drawing.entry(entry, facts)?;
        calls.events(entry, facts).iter().try_for_each(|it| drawing.event(it, space))
    })?;
    let mut left: Vec<_> = calls.left().collect();
    left.sort_by_key(|it| it.made.place);
    left.iter().try_for_each(|it| drawing.call(it, None, &player.space))?;
    drawing.end(range.from, player.source.place())
}

#[cfg(test)]
mod tests {
    use super::*;

    #[test]
    fn the_page_has_one_place_for_its_data() {
        assert_eq!(PAGE.matches(DATA).count(), 1);
    }

    #[test]
    fn no_text_ends_the_script() {
        let mut held = b"<!-- {\"text\":\"</script>\"}".to_vec();
        escape(&mut held, 5);
        assert_eq!(held, b"<!-- {\"text\":\"\\u003c/script>\"}");
    }
}
