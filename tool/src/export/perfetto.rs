// SPDX-License-Identifier: Apache-2.0 OR MIT
//! Trace events as JSON, which Perfetto's viewer and others read: a track for each thread of each process, a slice for each call
//! that is served and for each that is waited for, a flow from a call to its server and from its reply to the caller, an instant
//! for each refusal.
//!
//! Where times lie beside the journal an entry stands at its time by the monotonic clock, and what it begins and ends follow one
//! another by a nanosecond each. Else the entry at place K stands at K microseconds, and all follow one another within that.
use crate::calls::{Call, Calls, Doing, Event, Objects, Why};
use crate::following::{Facts, Space};
use crate::journal::{Answer, Entry, Step};
use crate::kernel::following::Following;
use crate::kernel::trace::{Seen, Trace as Kernel};
use crate::out::Out;
use crate::play::{Player, Range};
use crate::show::method_code_words;
use crate::who::{Comms, Person};
use anyhow::Result;
use serde::Serialize;
use std::collections::HashMap;

/// Into how many parts an entry's microsecond is divided.
const PARTS: f64 = 65536.0;

/// One trace event.
#[derive(Debug, Default, Serialize)]
struct Traced<'a> {
    name: &'a str,
    ph: &'a str,
    #[serde(skip_serializing_if = "str::is_empty")]
    cat: &'a str,
    ts: f64,
    pid: u32,
    tid: u32,
    #[serde(skip_serializing_if = "Option::is_none")]
    id: Option<u64>,
    /// A flow ends in the slice around it.
    #[serde(skip_serializing_if = "Option::is_none")]
    bp: Option<&'a str>,
    /// An instant is of its thread.
    #[serde(skip_serializing_if = "Option::is_none")]
    s: Option<&'a str>,
    #[serde(skip_serializing_if = "Option::is_none")]
    args: Option<Told>,
}

#[derive(Debug, Default, Serialize)]
struct Told {
    #[serde(skip_serializing_if = "Option::is_none")]
    name: Option<String>,
    #[serde(skip_serializing_if = "Option::is_none")]
    place: Option<u64>,
    #[serde(skip_serializing_if = "Option::is_none")]
    bytes: Option<u64>,
    #[serde(skip_serializing_if = "Option::is_none")]
    why: Option<&'static str>,
}

/// A process's pid, and the tid of its thread, or the seat where that isn't known.
type Track = (u32, u32);

/// What a slice is of.
#[derive(Clone, Copy, Debug, PartialEq, Eq)]
enum Of {
    Serving(u64),
    Waiting(u64),
}

/// A slice that has begun; one that has ended is closed once no other is open within it.
#[derive(Debug)]
struct Open {
    of: Of,
    has_ended: bool,
}

struct Trace<'a> {
    out: &'a mut Out,
    tracks: HashMap<Track, Vec<Open>>,
    is_first: bool,
    /// The entry that is told of, and how many events it has had.
    place: u64,
    part: u32,
    /// By the monotonic clock: when the next event may stand at the earliest; None where there are no times.
    clock: Option<u64>,
    comms: Comms,
}

fn track(doing: Doing) -> Track {
    (doing.pid, doing.tid.unwrap_or(doing.seat))
}

/// What a call is called: by the object that it is on, and by its code.
fn call_name(call: &Call, objects: &dyn Objects) -> String {
    let code = method_code_words(call.object.and_then(|it| objects.interface(it)), call.code);
    match call.object.and_then(|it| objects.called(it)) {
        Some(name) => format!("{name} {code}"),
        None => format!("{} {code}", call.object.map_or(String::new(), |it| objects.words(it))),
    }
}

impl Trace<'_> {
    fn put(&mut self, event: &Traced<'_>) -> Result<()> {
        self.out.held.extend(if self.is_first { &b"\n"[..] } else { &b",\n"[..] });
        self.is_first = false;
        serde_json::to_writer(&mut self.out.held, event)?;
        Ok(self.out.pass()?)
    }

    /// An event behind those that the entry has had.
    fn next<'b>(&mut self, ph: &'b str, name: &'b str, track: Track) -> Traced<'b> {
        let ts = match &mut self.clock {
            Some(clock) => {
                *clock += 1;
                (*clock - 1) as f64 / 1000.0
            }
            None => self.place as f64 + f64::from(self.part) / PARTS,
        };
        self.part += 1;
        Traced { name, ph, ts, pid: track.0, tid: track.1, ..Traced::default() }
    }

    /// Names a track when something first happens there.
    fn meet(&mut self, track: Track, person: Option<&Person>) -> Result<()> {
        if self.tracks.contains_key(&track) {
            return Ok(());
        }
        self.tracks.insert(track, Vec::new());
        let process = self.comms.get(track.0).map_or_else(|| format!("pid {}", track.0), String::from);
        let thread = person.map_or_else(|| format!("seat {}", track.1), |it| it.comm.to_string());
        for (kind, name) in [("process_name", process), ("thread_name", thread)] {
            let args = Some(Told { name: Some(name), ..Told::default() });
            let event = self.next("M", kind, track);
            self.put(&Traced { args, ..event })?;
        }
        Ok(())
    }

    fn begin(&mut self, doing: Doing, of: Of, call: &Call, name: &str) -> Result<()> {
        let cat = if matches!(of, Of::Serving(_)) { "serves" } else { "waits" };
        let args = Some(Told { place: Some(call.made.place), bytes: call.size, ..Told::default() });
        let event = self.next("B", name, track(doing));
        self.put(&Traced { cat, args, ..event })?;
        self.tracks.entry(track(doing)).or_default().push(Open { of, has_ended: false });
        Ok(())
    }

    /// Ends a slice, and with it those around it that ended before.
    fn end(&mut self, track: Track, of: Of) -> Result<()> {
        let open = self.tracks.entry(track).or_default();
        if let Some(it) = open.iter_mut().rfind(|it| it.of == of) {
            it.has_ended = true;
        }
        while self.tracks.get(&track).and_then(|it| it.last()).map_or(false, |it| it.has_ended) {
            self.tracks.entry(track).or_default().pop();
            let event = self.next("E", "", track);
            self.put(&event)?;
        }
        Ok(())
    }

    /// Ends all slices of a track.
    fn end_track(&mut self, track: Track) -> Result<()> {
        for open in self.tracks.get_mut(&track).into_iter().flatten() {
            open.has_ended = true;
        }
        self.end(track, Of::Serving(u64::MAX))
    }

    fn flow(&mut self, ph: &str, name: &str, id: u64, doing: Doing) -> Result<()> {
        let bp = (ph == "f").then_some("e");
        let event = self.next(ph, name, track(doing));
        self.put(&Traced { cat: "binder", id: Some(id), bp, ..event })
    }

    fn instant(&mut self, name: &str, why: Option<&'static str>, doing: Doing) -> Result<()> {
        let args = Some(Told { place: Some(doing.place), why, ..Told::default() });
        let event = self.next("i", name, track(doing));
        self.put(&Traced { cat: "refused", s: Some("t"), args, ..event })
    }

    /// A one-way call leaves no slice on its caller's track but a short one, from which its flow begins.
    fn made(&mut self, call: &Call, name: &str) -> Result<()> {
        let of = Of::Waiting(call.made.place);
        self.begin(call.made, of, call, name)?;
        self.flow("s", "call", 2 * call.made.place, call.made)?;
        if call.one_way {
            self.end(track(call.made), of)?;
        }
        Ok(())
    }

    fn event(&mut self, event: &Event, objects: &dyn Objects) -> Result<()> {
        match event {
            Event::Made(call) => self.made(call, &call_name(call, objects)),
            Event::Refused(doing, why) => {
                let text = if let Why::Reason(reason) = why { Some(reason.text()) } else { None };
                self.instant(&why.name(), text, *doing)
            }
            Event::Taken(call) => {
                let doing = call.taken.unwrap_or(call.made);
                self.begin(doing, Of::Serving(call.made.place), call, &call_name(call, objects))?;
                self.flow("f", "call", 2 * call.made.place, doing)
            }
            Event::Replied(call) => {
                let doing = call.replied.map_or(call.made, |it| it.0);
                self.flow("s", "reply", 2 * call.made.place + 1, doing)?;
                self.end(track(doing), Of::Serving(call.made.place))
            }
            Event::Done(call, doing) => {
                self.flow("f", "reply", 2 * call.made.place + 1, *doing)?;
                self.end(track(*doing), Of::Waiting(call.made.place))
            }
            Event::Died(doing, name) => self.instant(name, None, *doing),
            Event::Failed(call, doing, _) => {
                self.instant("no reply", None, *doing)?;
                self.end(track(*doing), Of::Waiting(call.made.place))
            }
            Event::Freed(call, _) => match call.taken {
                Some(taken) => self.end(track(taken), Of::Serving(call.made.place)),
                None => Ok(()),
            },
        }
    }

    /// All that an entry tells.
    fn entry(&mut self, entry: &Entry<'_>, events: &[Event], space: &Space, facts: &Facts) -> Result<()> {
        self.place = entry.place;
        self.part = 0;
        self.comms.learn(facts);
        // Entries that have no time any more follow the last that had one.
        self.clock = self.clock.map(|it| facts.time.map_or(it, |now| now.clock.max(it)));
        let person = facts.person.as_ref();
        let track = match facts.pid {
            Some(pid) => (pid, person.and_then(|it| it.tid).unwrap_or(entry.seat)),
            None => return Ok(()),
        };
        self.meet(track, person)?;
        events.iter().try_for_each(|it| self.event(it, space))?;
        match (&entry.step, &entry.answer) {
            (Step::ExitThread, Answer::Exited) => self.end_track(track),
            (Step::ExitProcess, Answer::Exited) => self.end_tracks(|it| it.0 == track.0),
            // A reply that was refused closes its call.
            (Step::Command { .. }, Answer::Refused(_)) => match facts.answers {
                Some(call) => self.end(track, Of::Serving(call)),
                None => Ok(()),
            },
            _ => Ok(()),
        }
    }

    fn end_tracks(&mut self, wanted: impl Fn(&Track) -> bool) -> Result<()> {
        let mut tracks: Vec<_> = self.tracks.keys().copied().filter(wanted).collect();
        tracks.sort_unstable();
        tracks.into_iter().try_for_each(|it| self.end_track(it))
    }
}

impl Trace<'_> {
    fn new(out: &mut Out, clock: Option<u64>) -> Trace<'_> {
        out.held.extend(b"{\"displayTimeUnit\":\"ns\",\"traceEvents\":[");
        Trace { out, tracks: HashMap::new(), is_first: true, place: 0, part: 0, clock, comms: Comms::default() }
    }

    /// What a kernel's trace tells, each event at its own time.
    fn told(&mut self, event: &Event, following: &Following) -> Result<()> {
        let doing = event.doing();
        self.place = doing.place;
        self.part = 0;
        self.clock = doing.time.map(|it| it.clock);
        let comm = following.threads.comm(doing.seat);
        if let Some(name) = following.threads.comms.get(doing.pid) {
            self.comms.name(doing.pid, true, &name.into());
        }
        let person = Person { pid: doing.pid, tid: doing.tid, comm };
        self.meet(track(doing), Some(&person))?;
        self.event(event, following)
    }
}

/// Writes the trace of a kernel's trace.
pub fn export_trace(kernel: &mut Kernel, range: Range, out: &mut Out) -> Result<()> {
    let mut trace = Trace::new(out, Some(0));
    let mut latest = 0;
    let done = kernel.each(range, |seen, following| match seen {
        Seen::Line(time) => {
            latest = time.map_or(latest, |it| it.clock);
            Ok(())
        }
        Seen::Verb(_) => Ok(()),
        Seen::Event(event) => trace.told(event, following),
    });
    trace.clock = Some(latest);
    trace.end_tracks(|_| true)?;
    trace.out.held.extend(b"\n]}\n");
    done
}

/// Writes the trace of a range.
pub fn export(player: &mut Player, range: Range, out: &mut Out) -> Result<()> {
    let mut calls = Calls::default();
    let mut trace = Trace::new(out, player.beside.has_times().then_some(0));
    player.each(range, |entry, space, facts| trace.entry(entry, &calls.events(entry, facts), space, facts))?;
    trace.place = player.source.place();
    trace.part = 0;
    trace.end_tracks(|_| true)?;
    out.held.extend(b"\n]}\n");
    Ok(())
}
