// SPDX-License-Identifier: Apache-2.0 OR MIT
//! What a kernel was like at one moment: its files, each alone or all that a bug report has.
use super::counts::{self, Counts};
use super::errno;
use super::format::{self, Format};
use super::is_node;
use super::lines::Lines;
use super::log::{self, Entry};
use super::names::{self, Named};
use super::report::{self, Part};
use super::state::{self, looper_words, Buffer, Node, Process, Reference, State, Transaction, Work};
use crate::following::ObjectId;
use crate::live::calls::short_code;
use crate::play::name;
use anyhow::{bail, Context, Result};
use std::collections::{BTreeMap, HashMap};
use std::fs::File;
use std::io::{self, BufReader, Write};

/// What nodes are called.
type Names = HashMap<u64, Named>;

/// All that one file tells of a moment.
#[derive(Debug, Default)]
pub struct Look {
    path: String,
    state: Option<State>,
    counts: Option<Vec<Counts>>,
    log: Vec<Entry>,
    /// Whether there is a log at all.
    has_log: bool,
}

/// A file of one moment, where this is one; None where it is a journal, a trace, or nothing that is known.
pub fn of_path(path: &str) -> Result<Option<Look>> {
    match format::of_path(path)? {
        Some(format) if format.is_trace() || matches!(format, Format::Perfetto | Format::Gzip) => Ok(None),
        Some(format) => open(path, format).with_context(|| name(path)).map(Some),
        None => Ok(None),
    }
}

impl Look {
    /// A look that has a state alone.
    #[cfg(feature = "fuzz")]
    pub fn of_state(state: State) -> Look {
        Look { state: Some(state), ..Look::default() }
    }
}

fn lines(path: &str) -> Result<Lines<'static>> {
    Ok(match path {
        "-" => Lines::new(Box::new(BufReader::new(io::stdin()))),
        _ => Lines::new(Box::new(BufReader::with_capacity(1 << 16, File::open(path)?))),
    })
}

fn open(path: &str, format: Format) -> Result<Look> {
    let mut look = Look { path: path.into(), ..Look::default() };
    match format {
        Format::State | Format::Transactions => look.state = Some(state::read(&mut lines(path)?)?),
        Format::Stats => look.counts = Some(counts::read(&mut lines(path)?)?),
        Format::Log => look.add_log(log::read(&mut lines(path)?)?),
        #[cfg(feature = "whole")]
        Format::Zip => look.add_parts(super::zipped::unzipped(path)?)?,
        _ => look.add_parts(report::parts(&mut lines(path)?)?)?,
    }
    Ok(look)
}

impl Look {
    fn add_log(&mut self, entries: Vec<Entry>) {
        self.has_log = true;
        self.log.extend(entries);
    }

    fn add_parts(&mut self, parts: Vec<(Part, Vec<u8>)>) -> Result<()> {
        if parts.is_empty() {
            bail!("this bug report has none of Binder's parts: no heading such as ------ BINDER STATE (..) ------");
        }
        for (part, text) in parts {
            let mut lines = Lines::new(Box::new(&text[..]));
            let of = || format!("in its part {}", part.name());
            match part {
                Part::State => self.state = Some(state::read(&mut lines).with_context(of)?),
                // A state has all that transactions tell.
                Part::Transactions if self.state.is_some() => {}
                Part::Transactions => self.state = Some(state::read(&mut lines).with_context(of)?),
                Part::Stats => self.counts = Some(counts::read(&mut lines).with_context(of)?),
                Part::Log | Part::Failed => self.add_log(log::read(&mut lines).with_context(of)?),
            }
        }
        Ok(())
    }

    fn state(&self) -> Result<&State> {
        let missing = || format!("{}: it has no state: neither nodes nor threads", name(&self.path));
        self.state.as_ref().with_context(missing)
    }

    /// What tells whose nodes are, and which of them managers.
    pub fn told_of_nodes(&self) -> (Option<&State>, &[Entry]) {
        (self.state.as_ref(), &self.log)
    }

    fn names(&self) -> Names {
        names::of_moment(self.state.as_ref(), &self.log)
    }

    /// Says which names that the user gave are no node's.
    fn say_names(&self, names: &Names) {
        names::say(&name(&self.path), names.values().map(|it| &it.service[..]));
    }

    /// Whether it tells of nodes and handles.
    fn whole_state(&self) -> Result<&State> {
        let state = self.state()?;
        if !state.is_whole {
            bail!("{}: `transactions` has no nodes and handles; `state` has", name(&self.path));
        }
        Ok(state)
    }

    /// Prints what each process has.
    pub fn put_state(&self, to: &mut Vec<u8>) -> Result<()> {
        let (state, names) = (self.state()?, self.names());
        for node in &state.dead_nodes {
            let (known, rest) = node_line(node, &Names::default());
            writeln!(to, "{known} of a process that has ended{rest}")?;
        }
        for process in &state.processes {
            writeln!(to, "{}", head(process))?;
            for (known, rest) in lines_of(process, &names) {
                writeln!(to, "  {known}{rest}")?;
            }
        }
        self.say_names(&names);
        if !state.is_whole {
            eprintln!(
                "hullpippin: {}: left out, since `transactions` doesn't tell them: nodes, handles, idle threads",
                name(&self.path)
            );
        }
        Ok(())
    }

    /// Prints what differs in a later look.
    pub fn put_difference(&self, to: &mut Vec<u8>, later: &Look) -> Result<()> {
        let (before, after) = (known(self.state()?, &self.names()), known(later.state()?, &later.names()));
        let mut keys: Vec<_> = before.keys().chain(after.keys()).collect();
        keys.sort();
        keys.dedup();
        for key in keys {
            let (was, is) = (before.get(key), after.get(key));
            for (sign, line) in [('-', was), ('+', is)].into_iter().filter(|_| was != is) {
                if let Some(rest) = line {
                    writeln!(to, "{sign} {}{rest}", key.2)?;
                }
            }
        }
        Ok(())
    }

    /// Prints who holds a node.
    pub fn put_holders(&self, to: &mut Vec<u8>, object: ObjectId) -> Result<()> {
        if !is_node(object) {
            bail!("a kernel numbers its nodes: 23, not {object}");
        }
        let (state, number) = (self.whole_state()?, object.place);
        let of = |process: &Process| process.nodes.iter().find(|it| it.number == number).cloned();
        let owned = state.processes.iter().find_map(|it| Some((Some(it.pid), of(it)?)));
        let dead = || Some((None, state.dead_nodes.iter().find(|it| it.number == number).cloned()?));
        let (owner, node) = match owned.or_else(dead) {
            Some(found) => found,
            None => bail!("{}: there is no node {number} in it; `state` prints those that there are", name(&self.path)),
        };
        let owner = owner.map_or("a process that has ended".into(), |it| format!("pid {it}"));
        let names = self.names();
        let called = called(&names, number);
        writeln!(to, "node {number}{called} of {owner}, ptr {:#x} cookie {:#x}", node.ptr, node.cookie)?;
        let ([strong, weak], [local_strong, local_weak]) = (node.told, node.local);
        writeln!(to, "its owner was told: {strong} strong, {weak} weak; the driver holds it itself: {local_strong} strong, {local_weak} weak")?;
        for process in &state.processes {
            for it in process.references.iter().filter(|it| it.node == number) {
                writeln!(to, "  pid {} names it by handle {}: {}", process.pid, it.handle, strength(it))?;
            }
        }
        self.say_names(&names);
        eprintln!(
            "hullpippin: {}: left out, since the kernel doesn't tell it: which buffers hold it",
            name(&self.path)
        );
        Ok(())
    }

    /// Prints what was read and isn't given back; with a later look what is still so, and what has grown.
    pub fn put_leaks(&self, to: &mut Vec<u8>, later: Option<&Look>, most: usize) -> Result<()> {
        let (before, now) = (self.state()?, later.unwrap_or(self).state()?);
        let known = buffers(before);
        let mut count = 0;
        for process in &now.processes {
            let is_old = |it: &&Buffer| later.is_none() || known.contains_key(&(process.pid, it.number));
            let held: Vec<&Buffer> = process.buffers.iter().filter(|it| it.is_delivered).filter(is_old).collect();
            put_held(to, process.pid, &held, later.is_some(), most)?;
            count += held.len();
        }
        if later.is_some() {
            count += put_growth(to, before, now)?;
        }
        if count == 0 {
            writeln!(
                to,
                "nothing is held: no buffer was read and not freed{}",
                if later.is_some() { ", and nothing has grown" } else { "" }
            )?;
        }
        if later.is_none() {
            eprintln!(
                "hullpippin: {}: one look doesn't tell how long: a second one, some time later, does: leaks {0} LATER",
                name(&self.path)
            );
        }
        Ok(())
    }

    pub fn put_counts(&self, to: &mut Vec<u8>) -> Result<()> {
        let missing = || format!("{}: it has no stats", name(&self.path));
        Ok(counts::put(to, self.counts.as_ref().with_context(missing)?)?)
    }

    fn log(&self) -> Result<&[Entry]> {
        match self.has_log {
            true => Ok(&self.log),
            false => bail!("{}: it has no transaction log", name(&self.path)),
        }
    }

    /// Prints the calls of a log, which has neither codes nor times.
    pub fn put_log(&self, to: &mut Vec<u8>) -> Result<()> {
        let names = self.names();
        for it in self.log()? {
            writeln!(
                to,
                "{}{}",
                entry_head(it, &names),
                if it.is_refused() { format!(" = {}", errno::words(it, None)) } else { String::new() }
            )?;
        }
        self.say_names(&names);
        eprintln!("hullpippin: {}: left out, since a log doesn't tell them: codes, times, names of threads, which reply answers which call", name(&self.path));
        Ok(())
    }

    /// Prints why calls were refused, by the lines of a version's binder.c where one is given.
    pub fn put_refusals(&self, to: &mut Vec<u8>, version: Option<&str>) -> Result<()> {
        let refused: Vec<&Entry> = self.log()?.iter().filter(|it| it.is_refused()).collect();
        let names = self.names();
        for it in &refused {
            writeln!(to, "{}\n  {}", entry_head(it, &names), errno::words(it, version))?;
        }
        if refused.is_empty() {
            writeln!(to, "no call was refused, of those that the log has")?;
        } else if version.is_none() {
            eprintln!(
                "hullpippin: {}: what a line of binder.c says is known with --kernel, of {}",
                name(&self.path),
                errno::known()
            );
        }
        Ok(())
    }
}

/// A name behind a node's number, if it has one.
fn called(names: &Names, node: u64) -> String {
    names.get(&node).map_or(String::new(), |it| format!(" {:?}", it.service))
}

fn entry_head(it: &Entry, names: &Names) -> String {
    let (number, kind, context) = (it.number, &it.kind, &it.context);
    let party = |(process, thread): (u32, u32)| match (process, thread) {
        (0, _) => "nobody".into(),
        (process, 0) => format!("{process}"),
        (process, thread) => format!("{process}/{thread}"),
    };
    let (from, to) = (party(it.from), party(it.to));
    let target = match &kind[..] {
        "reply" => String::new(),
        _ => {
            let is_its = names.get(&it.node).map_or(false, |named| named.owner == it.to.0);
            let called = if is_its { called(names, it.node) } else { String::new() };
            format!(" node {}{called} by handle {}", it.node, it.handle)
        }
    };
    let incomplete = if it.is_incomplete { ", being written" } else { "" };
    let size = it.data.saturating_add(it.offsets);
    format!("{number}: {kind} {from} -> {to}, {context}{target}, {size} B{incomplete}")
}

fn strength(it: &Reference) -> String {
    let dead = if it.is_dead { ", its owner has ended" } else { "" };
    let death = if it.asks_for_death { ", asks to be told of its death" } else { "" };
    format!("{} strong, {} weak{dead}{death}", it.strong, it.weak)
}

fn head(process: &Process) -> String {
    match &process.context[..] {
        "" => format!("pid {}", process.pid),
        context => format!("pid {} context {context}", process.pid),
    }
}

fn transaction_words(it: &Transaction) -> String {
    let party =
        |(process, thread): (u32, u32)| if thread == 0 { process.to_string() } else { format!("{process}/{thread}") };
    let (from, to) = (party(it.from), party(it.to));
    let kind = if it.needs_reply {
        "call"
    } else if it.code == 0 && it.flags & 1 == 0 {
        "reply"
    } else {
        "one-way call"
    };
    let node = it.node.map_or(String::new(), |it| format!(" on node {it}"));
    let size = it.size.map_or(String::new(), |(data, offsets)| format!(", {} B", data.saturating_add(offsets)));
    let code = short_code(it.code);
    format!("{} {kind} {} from {from} to {to}{node} code{}{size}", it.way, it.number, code.replace('#', " "))
}

fn work_words(work: &Work) -> String {
    match work {
        Work::Transaction(it) => transaction_words(it),
        Work::Node(node) => format!("notice of node {node}"),
        Work::Other(text) => text.chars().filter(|it| !it.is_control()).collect(),
    }
}

fn node_line(it: &Node, names: &Names) -> (String, String) {
    let holders: String = it.held_by.iter().map(|it| format!(", named by pid {it}")).collect();
    let told = format!("told {} strong, {} weak", it.told[0], it.told[1]);
    let (called, Node { ptr, cookie, handles, .. }) = (called(names, it.number), it);
    let rest = format!("{called} ptr {ptr:#x} cookie {cookie:#x}, {told}, {handles} handles{holders}");
    (format!("node {}", it.number), rest)
}

/// All that a process has, line by line: what a line is known by, and what it says of that.
fn lines_of(process: &Process, names: &Names) -> Vec<(String, String)> {
    let mut lines = Vec::new();
    let unread = |of: &str, it: &Work| (format!("{of}unread: {}", work_words(it)), String::new());
    lines.extend(process.work.iter().map(|it| unread("", it)));
    for it in &process.threads {
        let of = format!("thread {}", it.tid);
        lines.push((of.clone(), looper_words(it.looper)));
        lines.extend(it.transactions.iter().map(|it| (format!("{of} {}", transaction_words(it)), String::new())));
        lines.extend(it.work.iter().map(|it| unread(&format!("{of} "), it)));
    }
    for it in &process.nodes {
        lines.push(node_line(it, names));
        lines.extend(it.work.iter().map(|work| unread(&format!("node {} ", it.number), work)));
    }
    for it in &process.references {
        let rest = format!(" node {}{}, {}", it.node, called(names, it.node), strength(it));
        lines.push((format!("handle {}", it.handle), rest));
    }
    lines.extend(process.buffers.iter().map(buffer_line));
    lines
}

fn buffer_line(it: &Buffer) -> (String, String) {
    let size = it.data.saturating_add(it.offsets).saturating_add(it.more);
    let read = if it.is_delivered { "read and not freed" } else { "of a call that is open" };
    (format!("buffer of transaction {}", it.number), format!(", {size} B, {read}"))
}

/// Each line of a state by whose it is and what it is known by.
fn known(state: &State, names: &Names) -> BTreeMap<(u32, usize, String), String> {
    let mut lines = BTreeMap::new();
    for process in &state.processes {
        let whose = head(process);
        lines.insert((process.pid, 0, whose.clone()), String::new());
        for (known, rest) in lines_of(process, names) {
            lines.insert((process.pid, 1, format!("pid {} {known}", process.pid)), rest);
        }
    }
    lines
}

/// Buffers that were read, by whose they are and by their numbers.
fn buffers(state: &State) -> HashMap<(u32, u64), &Buffer> {
    let of = |process| {
        let Process { pid, buffers, .. }: &Process = process;
        buffers.iter().filter(|it| it.is_delivered).map(move |it| ((*pid, it.number), it))
    };
    state.processes.iter().flat_map(of).collect()
}

fn put_held(to: &mut Vec<u8>, pid: u32, held: &[&Buffer], in_both: bool, most: usize) -> io::Result<()> {
    if held.is_empty() {
        return Ok(());
    }
    let both = if in_both { ", in both looks" } else { "" };
    writeln!(to, "pid {pid}: {} buffers were read and not freed{both}", held.len())?;
    for it in held.iter().take(most) {
        let (known, rest) = buffer_line(it);
        writeln!(to, "  {known}{rest}")?;
    }
    if held.len() > most {
        writeln!(to, "  and {} more", held.len() - most)?;
    }
    Ok(())
}

/// What a process has, counted.
fn counted(process: &Process) -> [(&'static str, u64); 4] {
    let strong = process.references.iter().fold(0u64, |sum, it| sum.saturating_add(it.strong).saturating_add(it.weak));
    [
        ("handles", process.references.len() as u64),
        ("references by handles", strong),
        ("nodes of its own", process.nodes.len() as u64),
        ("buffers", process.buffers.len() as u64),
    ]
}

/// Prints what has grown; how much that was.
fn put_growth(to: &mut Vec<u8>, before: &State, now: &State) -> io::Result<usize> {
    let mut count = 0;
    for process in &now.processes {
        let is_same = |it: &&Process| it.pid == process.pid && it.context == process.context;
        let was = match before.processes.iter().find(is_same) {
            Some(was) => was,
            None => continue,
        };
        for ((what, was), (_, is)) in counted(was).into_iter().zip(counted(process)).filter(|(was, is)| was.1 < is.1) {
            writeln!(to, "pid {}: {what} grew from {was} to {is}", process.pid)?;
            count += 1;
        }
    }
    Ok(count)
}
