// SPDX-License-Identifier: Apache-2.0 OR MIT
//! The calls of a recording, a line each: of a journal, or of a kernel's trace.
use crate::aidl::method_words;
use crate::calls::{Back, Call, Calls, Doing, Event, Objects, Passed, Why, OF_THREAD};
use crate::kernel::following::Following;
use crate::kernel::trace::{Seen, Trace};
use crate::out::{Out, Palette};
use crate::play::{Player, Range};
use crate::times::duration_words;
use crate::told::{Ending, Subject, Told, Unread, Wanted};
use crate::who::{Comms, Person, NOT_RECORDED};
use anyhow::Result;
use std::cell::Cell;
use std::collections::HashMap;
use std::rc::Rc;

/// Who threads are, by whoever tells of them.
trait People {
    /// What a thread is called; None where nobody knows.
    fn comm(&self, doing: Doing) -> Option<Rc<str>>;
    fn comms(&self) -> &Comms;
}

impl People for Following {
    fn comm(&self, doing: Doing) -> Option<Rc<str>> {
        Some(self.threads.comm(doing.seat)).filter(|it| !it.is_empty())
    }

    fn comms(&self) -> &Comms {
        &self.threads.comms
    }
}

/// The people of a journal, by pid and seat.
#[derive(Default)]
struct Sitting {
    people: HashMap<(u32, u32), Person>,
    comms: Comms,
}

impl People for Sitting {
    fn comm(&self, doing: Doing) -> Option<Rc<str>> {
        self.people.get(&(doing.pid, doing.seat)).map(|it| it.comm.clone())
    }

    fn comms(&self) -> &Comms {
        &self.comms
    }
}

/// How a call ended, and who has seen that where.
struct End<'a> {
    ending: Ending,
    ended: Option<Doing>,
    call: &'a Call,
}

pub struct Chronicle<'a> {
    wanted: &'a Wanted,
    palette: Palette,
    /// How many lines there were.
    lines: Cell<u64>,
}

/// As `sensors(812/815)`; without a name `pid 812 seat 3`; without its process's pid `sensors(-/815)`; who wasn't recorded has no numbers.
fn thread_words(doing: Doing, people: &dyn People) -> String {
    let pid = match doing.pid & OF_THREAD {
        0 => doing.pid.to_string(),
        _ => "-".into(),
    };
    match (people.comm(doing), doing.tid) {
        (Some(comm), _) if doing.pid == NOT_RECORDED => comm.to_string(),
        (Some(comm), Some(tid)) => format!("{}({pid}/{tid})", comm.escape_debug()),
        (Some(comm), None) => format!("{}({pid})", comm.escape_debug()),
        (None, Some(tid)) => format!("({pid}/{tid})"),
        (None, None) => format!("pid {pid} seat {}", doing.seat),
    }
}

/// Who is called: the thread that has read it, or the process.
fn server_words(call: &Call, people: &dyn People) -> String {
    match (call.taken, people.comms().get(call.to)) {
        (Some(taken), _) => thread_words(taken, people),
        (None, Some(comm)) if call.to == NOT_RECORDED => comm.to_string(),
        (None, Some(comm)) => format!("{}({})", comm.escape_debug(), call.to),
        (None, None) => format!("pid {}", call.to),
    }
}

/// What is handed over, and with what.
fn passed_words(passed: &[Passed]) -> String {
    let of = |it: &Passed| match it.handle {
        Some(handle) => format!("node {} as handle {handle}", it.node),
        None => format!("node {} of its own", it.node),
    };
    let part = |with_reply: bool, head: &str| {
        let words: Vec<_> = passed.iter().filter(|it| it.with_reply == with_reply).map(of).collect();
        if words.is_empty() {
            String::new()
        } else {
            format!(" [{head}{}]", words.join(", "))
        }
    };
    part(false, "") + &part(true, "back: ")
}

/// How long it was between two: by the clock, or in places where there is none.
fn took(from: Doing, to: Doing) -> String {
    match (to.since(from), from.time) {
        (Some(took), _) => duration_words(took),
        (None, None) => format!("{} entries", to.place.saturating_sub(from.place)),
        (None, Some(_)) => "at a time that isn't known".into(),
    }
}

fn when(doing: Doing) -> String {
    doing.time.map_or_else(|| doing.place.to_string(), |it| it.of_day())
}

impl<'a> Chronicle<'a> {
    pub fn new(wanted: &'a Wanted, palette: Palette) -> Self {
        Chronicle { wanted, palette, lines: Cell::new(0) }
    }
}

impl Chronicle<'_> {
    fn told(&self, end: End<'_>, objects: &dyn Objects, people: &dyn People) -> Told {
        let call = end.call;
        let name =
            call.object.map_or(String::new(), |it| objects.called(it).map_or_else(|| objects.number(it), String::from));
        let interface = call.object.and_then(|it| objects.interface(it));
        let ended = end.ended.filter(|_| !matches!(end.ending, Ending::Open));
        Told {
            when: when(call.made),
            from: thread_words(call.made, people),
            to: server_words(call, people),
            what: format!("{}{}", name.escape_debug(), method_words(interface, call.code, call.arguments.as_deref())),
            one_way: call.one_way,
            size: call.size,
            reply_size: call.replied.and_then(|it| it.1.size()),
            ending: end.ending,
            took: ended.map(|it| took(call.made, it)),
            unread: call.taken.map_or(Unread::Always, |it| Unread::For(took(call.made, it))),
            passed: passed_words(&call.passed),
        }
    }

    /// A call's line, if it is wanted.
    fn put(&self, end: End<'_>, objects: &dyn Objects, people: &dyn People, to: &mut Vec<u8>) {
        let call = end.call;
        let comm = |doing: Doing| people.comm(doing).map(|it| it.to_string());
        let comms: Vec<String> = [comm(call.made), call.taken.and_then(comm)].into_iter().flatten().collect();
        let processes = [call.made.pid, call.to].map(|it| people.comms().get(it));
        let subject = Subject {
            pids: vec![call.made.pid, call.to],
            comms: comms.iter().map(|it| &**it).chain(processes.into_iter().flatten()).collect(),
            code: call.code,
            interface: call.object.and_then(|it| objects.interface(it)),
            called: call.object.and_then(|it| objects.called(it)),
            has_failed: matches!(end.ending, Ending::Failed | Ending::Refused(_)) || is_refused(call),
        };
        if self.wanted.has(&subject) {
            self.add(self.told(end, objects, people).line(&self.palette), to);
        }
    }

    /// A line for what ends by an event, if anything does.
    fn event(&self, event: &Event, objects: &dyn Objects, people: &dyn People, to: &mut Vec<u8>) {
        let end = match event {
            Event::Taken(call) if call.one_way => End { ending: Ending::Done, ended: call.taken, call },
            Event::Done(call, doing) => End { ending: Ending::Done, ended: Some(*doing), call },
            Event::Failed(call, doing, _) => End { ending: Ending::Failed, ended: Some(*doing), call },
            Event::Refused(doing, why) => return self.put_refused(*doing, *why, people, to),
            _ => return,
        };
        self.put(end, objects, people, to);
    }

    /// Of what was refused nothing is known but who has sent it, and why it was.
    fn put_refused(&self, doing: Doing, why: Why, people: &dyn People, to: &mut Vec<u8>) {
        let comm = people.comm(doing).map(|it| it.to_string());
        let comms = comm.iter().map(|it| &**it).chain(people.comms().get(doing.pid)).collect();
        let subject = Subject { pids: vec![doing.pid], comms, has_failed: true, ..Subject::default() };
        if self.wanted.code.is_none() && self.wanted.has(&subject) {
            let Palette { place, name, refused, plain, .. } = &self.palette;
            let (when, who) = (when(doing), thread_words(doing, people));
            self.add(
                format!("{place}{when}{plain} {name}{who}{plain} -> nobody = {refused}{}{plain}\n", why.words()),
                to,
            );
        }
    }

    fn add(&self, line: String, to: &mut Vec<u8>) {
        self.lines.set(self.lines.get() + 1);
        to.extend(line.into_bytes());
    }
}

fn is_refused(call: &Call) -> bool {
    matches!(call.replied, Some((_, Back::Refused)))
}

impl Chronicle<'_> {
    /// A line for what ends by an event of a kernel's trace.
    pub fn told_by(&self, event: &Event, following: &Following, to: &mut Vec<u8>) {
        self.event(event, following, following, to);
    }

    /// Lines for the calls that are open.
    pub fn put_open(&self, following: &Following, to: &mut Vec<u8>) {
        let open = |call| End { ending: Ending::Open, ended: None, call };
        following.left().for_each(|it| self.put(open(it), following, following, to));
    }
}

/// Prints the calls of a journal as they end, and then those that are open; how many there were.
pub fn put_journal(player: &mut Player, range: Range, wanted: &Wanted, palette: Palette, out: &mut Out) -> Result<u64> {
    let chronicle = Chronicle::new(wanted, palette);
    let (mut calls, mut sitting) = (Calls::default(), Sitting::default());
    player.each(range, |entry, space, facts| {
        sitting.comms.learn(facts);
        if let (Some(pid), Some(person)) = (facts.pid, &facts.person) {
            sitting.people.insert((pid, entry.seat), person.clone());
        }
        let events = calls.events(entry, facts);
        events.iter().for_each(|it| chronicle.event(it, space, &sitting, &mut out.held));
        Ok(out.pass()?)
    })?;
    let mut left: Vec<Call> = calls.left().filter(|it| !it.one_way || it.taken.is_none()).collect();
    left.sort_by_key(|it| it.made.place);
    let open = |call| End { ending: Ending::Open, ended: None, call };
    left.iter().for_each(|it| chronicle.put(open(it), &player.space, &sitting, &mut out.held));
    Ok(chronicle.lines.get())
}

/// Prints the calls of a kernel's trace so.
pub fn put_trace(trace: &mut Trace, range: Range, wanted: &Wanted, palette: Palette, out: &mut Out) -> Result<u64> {
    let chronicle = Chronicle::new(wanted, palette);
    let done = trace.each(range, |seen, following| match seen {
        Seen::Event(event) => {
            chronicle.told_by(event, following, &mut out.held);
            Ok(out.pass()?)
        }
        _ => Ok(()),
    });
    chronicle.put_open(&trace.reader.following, &mut out.held);
    done.map(|()| chronicle.lines.get())
}
