// SPDX-License-Identifier: Apache-2.0 OR MIT
//! What each process has at a place: as lines, as JSON, and as what differs between two places.
use crate::codes::return_name;
use crate::following::{ObjectId, Space, STRONG, WEAK};
use crate::json::{Hex, ToldPerson, Word};
use crate::play::{Player, Spot};
use crate::rules::{Buffer, Item, Listed, Process, ProcessId, Thread, Todo, FIRST_POINTER};
use anyhow::Result;
use serde::Serialize;
use std::collections::BTreeMap;
use std::fmt::Write as _;
use std::io::{self, Write};

/// A work item. The members that `bplay state --format json` has are the same here and below.
#[derive(Serialize)]
struct ToldItem {
    since: u64,
    kind: &'static str,
    #[serde(skip_serializing_if = "Option::is_none")]
    object: Option<Word<ObjectId>>,
    #[serde(skip_serializing_if = "Option::is_none")]
    spam: Option<bool>,
    #[serde(skip_serializing_if = "Option::is_none")]
    name: Option<&'static str>,
    #[serde(skip_serializing_if = "Option::is_none")]
    made: Option<u64>,
    #[serde(skip_serializing_if = "Option::is_none")]
    cookie: Option<Hex>,
}

impl ToldItem {
    fn new(space: &Space, item: &Listed) -> ToldItem {
        let (object, spam, name, made, cookie) = (None, None, None, None, None);
        let told = ToldItem { since: item.by.0.unwrap_or(0), kind: "", object, spam, name, made, cookie };
        let sent = |buffer| space.buffer(buffer).map(|it| it.sent);
        match item.item {
            Item::Notice(object) => ToldItem { kind: "notice", object: space.id_of(object).map(Word), ..told },
            Item::Complete(spam) => ToldItem { kind: "complete", spam: Some(spam), ..told },
            Item::Refusal(reads) => ToldItem { kind: "refusal", name: Some(return_name(reads)), ..told },
            Item::Call(buffer) => ToldItem { kind: "call", made: sent(buffer), ..told },
            Item::Reply(buffer) => ToldItem { kind: "reply", made: sent(buffer), ..told },
            Item::Verdict(reads) => ToldItem { kind: "verdict", name: Some(return_name(reads)), ..told },
            Item::Death(made) => ToldItem { kind: "death", made: Some(made), ..told },
            Item::Cleared(cookie) => ToldItem { kind: "cleared", cookie: Some(Hex(cookie)), ..told },
        }
    }

    fn words(&self) -> String {
        let made = self.made.unwrap_or(0);
        match self.kind {
            "notice" => format!("notice of object {}", self.object.map_or(String::new(), |it| it.0.to_string())),
            "complete" if self.spam == Some(true) => "BR_ONEWAY_SPAM_SUSPECT".into(),
            "complete" => "BR_TRANSACTION_COMPLETE".into(),
            "refusal" => format!("{}, a refusal", self.name.unwrap_or("?")),
            "call" => format!("BR_TRANSACTION, the call at {made}"),
            "reply" => format!("BR_REPLY, the reply at {made}"),
            "verdict" => format!("{}, a verdict", self.name.unwrap_or("?")),
            "death" => format!("BR_DEAD_BINDER, the death notification at {made}"),
            _ => format!("BR_CLEAR_DEATH_NOTIFICATION_DONE cookie {:#x}", self.cookie.map_or(0, |it| it.0)),
        }
    }
}

#[derive(Serialize)]
struct ToldThread {
    seat: u32,
    #[serde(skip_serializing_if = "Option::is_none")]
    thread: Option<ToldPerson>,
    serves: Option<u64>,
    waits: Option<u64>,
    looping: bool,
    ready: bool,
    unread: Vec<ToldItem>,
}

#[derive(Serialize)]
struct ToldObject {
    object: Word<ObjectId>,
    ptr: Hex,
    cookie: Hex,
    told_weak: bool,
    told_strong: bool,
    called: Option<String>,
    /// The pids of those who have a name for it.
    named_by: Vec<u32>,
}

#[derive(Serialize)]
struct ToldHandle {
    handle: u32,
    object: Word<ObjectId>,
    owner: Option<u32>,
    strong: bool,
    asked_strongly: bool,
    asked_weakly: bool,
    carried: Vec<u64>,
    called: Option<String>,
    /// References that were asked for: strong, weak.
    asked: [u32; 2],
}

#[derive(Serialize)]
struct ToldBuffer {
    buffer: Hex,
    size: u64,
    made: u64,
    target: Option<Word<ObjectId>>,
    carries: Vec<Word<ObjectId>>,
    one_way: bool,
    unread: bool,
    from: u32,
    code: u32,
    read: Option<u64>,
}

#[derive(Serialize)]
struct ToldDeath {
    made: u64,
    object: Word<ObjectId>,
    cookie: Hex,
    phase: &'static str,
    cleared: bool,
}

#[derive(Serialize)]
struct ToldProcess {
    pid: u32,
    euid: u32,
    window: u64,
    opened: u64,
    spam_detection: bool,
    unread: Vec<ToldItem>,
    threads: Vec<ToldThread>,
    objects: Vec<ToldObject>,
    handles: Vec<ToldHandle>,
    buffers: Vec<ToldBuffer>,
    deaths: Vec<ToldDeath>,
}

#[derive(Serialize)]
struct ToldSpace {
    steps: u64,
    manager: Option<Word<ObjectId>>,
}

fn items(space: &Space, todo: &Todo) -> Vec<ToldItem> {
    todo.iter().map(|it| ToldItem::new(space, it)).collect()
}

fn thread(player: &Player, seat: u32, it: &Thread) -> ToldThread {
    let space = &player.space;
    let innermost = space.innermost(seat).map(|it| it.0);
    let serves = space.served(seat).map(|it| it.0);
    ToldThread {
        seat,
        thread: player.beside.sitting(seat).map(ToldPerson::new),
        serves,
        waits: if serves.is_none() { innermost } else { None },
        looping: it.is_looping,
        ready: space.is_ready(seat),
        unread: items(space, &it.todo),
    }
}

fn objects(space: &Space, process: ProcessId) -> Vec<ToldObject> {
    let pid = |it: &(ProcessId, u32)| space.processes.get(it.0).map(|it| it.pid);
    let told = |(ptr, it): (u64, &crate::rules::Object)| {
        let id = ObjectId::new(it.made);
        ToldObject {
            object: Word(id),
            ptr: Hex(ptr),
            cookie: Hex(it.cookie),
            told_weak: it.told[WEAK],
            told_strong: it.told[STRONG],
            called: space.name_of(id).map(String::from),
            named_by: it.names.iter().filter_map(pid).collect(),
        }
    };
    let mut objects: Vec<_> = space.objects_owned(process).map(told).collect();
    objects.sort_by_key(|it| it.object.0);
    objects
}

/// For each object the places at which buffers in that window were made that carry it.
fn carried(process: &Process) -> BTreeMap<crate::rules::ObjectId, Vec<u64>> {
    let mut places: BTreeMap<crate::rules::ObjectId, Vec<u64>> = BTreeMap::new();
    for (_, buffer) in process.buffers.iter() {
        for carry in &buffer.entries {
            places.entry(carry.object).or_default().push(buffer.sent);
        }
    }
    places.values_mut().for_each(|it| it.sort_unstable());
    places.values_mut().for_each(Vec::dedup);
    places
}

fn handles(space: &Space, process: &Process) -> Vec<ToldHandle> {
    let carried = carried(process);
    let told = |(handle, name): (u32, &crate::rules::Name)| {
        let object = space.objects.get(name.object)?;
        let id = ObjectId::new(object.made);
        Some(ToldHandle {
            handle,
            object: Word(id),
            owner: Some(object.owner_pid),
            strong: name.count(STRONG) > 0,
            asked_strongly: name.asked[STRONG] > 0,
            asked_weakly: name.asked[WEAK] > 0,
            carried: carried.get(&name.object).cloned().unwrap_or_default(),
            called: space.name_of(id).map(String::from),
            asked: [name.asked[STRONG], name.asked[WEAK]],
        })
    };
    process.names.iter().filter_map(told).collect()
}

fn buffer(space: &Space, place: u64, it: &Buffer) -> ToldBuffer {
    ToldBuffer {
        buffer: Hex(FIRST_POINTER + place),
        size: it.needed,
        made: it.sent,
        target: it.target.and_then(|it| space.id_of(it)).map(Word),
        carries: it.entries.iter().filter_map(|it| space.id_of(it.object)).map(Word).collect(),
        one_way: it.is_one_way,
        unread: it.read().is_none(),
        from: it.sender_pid,
        code: it.code,
        read: it.read(),
    }
}

fn process(player: &Player, id: ProcessId, it: &Process) -> ToldProcess {
    let space = &player.space;
    let threads = space.threads.iter().filter(|(_, thread)| thread.process == id);
    let mut buffers: Vec<_> = it.buffers.iter().map(|(place, it)| buffer(space, place, it)).collect();
    buffers.sort_by_key(|it| it.made);
    let death = |it: &crate::rules::Death| ToldDeath {
        made: it.number,
        object: Word(ObjectId::new(it.object)),
        cookie: Hex(it.cookie),
        phase: it.phase.name(),
        cleared: it.is_cleared,
    };
    ToldProcess {
        pid: it.pid,
        euid: it.euid,
        window: it.window,
        opened: it.by.0.unwrap_or(0),
        spam_detection: it.is_marked,
        unread: items(space, &it.todo),
        threads: threads.map(|(seat, thread)| self::thread(player, seat, thread)).collect(),
        objects: objects(space, id),
        handles: handles(space, it),
        buffers,
        deaths: it.deaths.iter().map(death).collect(),
    }
}

fn called(name: &Option<String>) -> String {
    name.as_ref().map_or(String::new(), |it| format!(" \"{it}\""))
}

fn listed<T: std::fmt::Display>(word: &str, all: &[T]) -> String {
    all.iter().fold(String::new(), |mut line, it| {
        let _ = write!(line, "{word}{it}");
        line
    })
}

fn marks(all: &[(bool, &str)]) -> String {
    all.iter().filter(|it| it.0).map(|it| it.1).collect()
}

impl ToldProcess {
    fn head(&self) -> String {
        let ToldProcess { pid, euid, window, opened, .. } = self;
        let spam = marks(&[(self.spam_detection, ", asks for reports of flooding")]);
        format!("pid {pid} euid {euid} window {window} opened at {opened}{spam}")
    }

    /// All that it has, line by line: what a line is known by, and what it says of that.
    fn lines(&self) -> Vec<(String, String)> {
        let mut lines = Vec::new();
        let unread =
            |of: &str, it: &ToldItem| (format!("{of}unread since {}: {}", it.since, it.words()), String::new());
        lines.extend(self.unread.iter().map(|it| unread("", it)));
        for it in &self.threads {
            let person = it.thread.as_ref().map_or(String::new(), |person| person.words(self.pid));
            lines.push((format!("seat {}{person}", it.seat), thread_words(it)));
            let of = format!("seat {} ", it.seat);
            lines.extend(it.unread.iter().map(|it| unread(&of, it)));
        }
        lines.extend(self.objects.iter().map(object_line));
        lines.extend(self.handles.iter().map(handle_line));
        lines.extend(self.buffers.iter().map(buffer_line));
        for it in &self.deaths {
            let cleared = marks(&[(it.cleared, ", cleared")]);
            let rest = format!(" object {} cookie {:#x}, {}{cleared}", it.object.0, it.cookie.0, it.phase);
            lines.push((format!("death notification made at {}", it.made), rest));
        }
        lines
    }
}

fn thread_words(it: &ToldThread) -> String {
    let mut line = String::new();
    if let Some(place) = it.serves {
        let _ = write!(line, ", serves the call at {place}");
    }
    if let Some(place) = it.waits {
        let _ = write!(line, ", waits in the call at {place}");
    }
    line + &marks(&[(it.looping, ", in the loop"), (it.ready, ", has something to read")])
}

fn object_line(it: &ToldObject) -> (String, String) {
    let told = marks(&[(it.told_weak, ", told weak"), (it.told_strong, ", told strong")]);
    let named = listed(", named by pid ", &it.named_by);
    let rest = format!("{} ptr {:#x} cookie {:#x}{told}{named}", called(&it.called), it.ptr.0, it.cookie.0);
    (format!("object {}", it.object.0), rest)
}

fn handle_line(it: &ToldHandle) -> (String, String) {
    let owner = it.owner.map_or(String::new(), |pid| format!(" of pid {pid}"));
    let strength = if it.strong { ", strong" } else { ", weak" };
    let [strong, weak] = it.asked;
    let mut rest = format!(" object {}{}{owner}{strength}", it.object.0, called(&it.called));
    for (count, how) in [(strong, "strongly"), (weak, "weakly")] {
        if count > 0 {
            let _ = write!(rest, ", asked {how} {count}");
        }
    }
    (format!("handle {}", it.handle), rest + &listed(", carried at ", &it.carried))
}

fn buffer_line(it: &ToldBuffer) -> (String, String) {
    let target = it.target.map_or(String::new(), |it| format!(", for object {}", it.0));
    let carries: Vec<ObjectId> = it.carries.iter().map(|it| it.0).collect();
    let marks = marks(&[(it.one_way, ", one-way"), (it.unread, ", unread")]);
    let rest = format!(
        " size {} from pid {} code {:#x}{target}{}{marks}",
        it.size,
        it.from,
        it.code,
        listed(", carries ", &carries)
    );
    (format!("buffer {:#x} made at {}", it.buffer.0, it.made), rest)
}

fn told(player: &Player) -> impl Iterator<Item = ToldProcess> + '_ {
    player.space.processes.iter().map(move |(id, it)| process(player, id, it))
}

fn manager(space: &Space) -> Option<ObjectId> {
    space.id_of(space.manager?)
}

pub fn put_text(to: &mut Vec<u8>, player: &Player) -> io::Result<()> {
    let space = &player.space;
    writeln!(to, "after {} steps", space.made())?;
    if let Some(manager) = manager(space) {
        writeln!(to, "manager object {manager}")?;
    }
    for process in told(player) {
        writeln!(to, "{}", process.head())?;
        for (name, rest) in process.lines() {
            writeln!(to, "  {name}{rest}")?;
        }
    }
    Ok(())
}

pub fn put_json(to: &mut Vec<u8>, player: &Player) -> Result<()> {
    let space = &player.space;
    serde_json::to_writer(&mut *to, &ToldSpace { steps: space.made(), manager: manager(space).map(Word) })?;
    to.push(b'\n');
    for process in told(player) {
        serde_json::to_writer(&mut *to, &process)?;
        to.push(b'\n');
    }
    Ok(())
}

/// Each line of a state by whose it is and what it is known by.
fn known(player: &Player) -> BTreeMap<(u64, usize, String), String> {
    let mut lines = BTreeMap::new();
    let manager = manager(&player.space).map_or("none".into(), |it| format!("object {it}"));
    lines.insert((0, 0, "manager".into()), format!(" {manager}"));
    for process in told(player) {
        let of = |order: usize, name: String| (process.opened + 1, order, name);
        lines.insert(of(0, format!("pid {}", process.pid)), format!(": {}", process.head()));
        for (name, rest) in process.lines() {
            lines.insert(of(1, format!("pid {} {name}", process.pid)), rest);
        }
    }
    lines
}

/// What is different after the second place: lines that are there no more, and those that weren't.
pub fn put_difference(to: &mut Vec<u8>, before: &Player, after: &Player) -> io::Result<()> {
    let (before, after) = (known(before), known(after));
    let mut keys: Vec<_> = before.keys().chain(after.keys()).collect();
    keys.sort();
    keys.dedup();
    for key in keys {
        let (was, is) = (before.get(key), after.get(key));
        if was == is {
            continue;
        }
        for (sign, line) in [('-', was), ('+', is)] {
            if let Some(rest) = line {
                writeln!(to, "{sign} {}{rest}", key.2)?;
            }
        }
    }
    Ok(())
}

/// A journal after so many steps, or after all of them.
pub fn at(path: &str, spot: Option<Spot>) -> Result<Player> {
    let mut player = Player::open(path, false)?;
    match spot.map(|it| player.place(it)).transpose()? {
        Some(place) => player.until(place)?,
        None => {
            player.jump(u64::MAX)?;
            while player.next(|| Ok(()))?.is_some() {}
            player.ended(Default::default())?;
        }
    }
    Ok(player)
}
