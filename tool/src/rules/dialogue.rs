// SPDX-License-Identifier: Apache-2.0 OR MIT
//! A script that is played line by line for a program that writes the next one by what there is: each line is answered at once by a
//! value of JSON (docs/FORMATS.md). Between a script's lines `state` tells what there is, and `ways NAMES` says how the next one is played.
use super::play::{Play, Said};
use super::script::{spoken, Line, Spoken};
use super::*;
use anyhow::{Context, Result};
use serde_json::{json, Value};

/// The switches with these names, with commas between them.
pub fn ways_of(names: &str) -> Result<Ways> {
    let names = names.split(',').filter(|it| !it.is_empty());
    Ways::named(names).map_err(|name| anyhow::anyhow!("{name} is none of the differences in docs/DIFFERENCES.md"))
}

/// A dialogue: how scripts are played, and the one that is.
pub struct Dialogue {
    ways: Ways,
    play: Option<Play>,
}

impl Dialogue {
    pub fn new(ways: Ways) -> Dialogue {
        Dialogue { ways, play: None }
    }

    /// What is said to a line; nothing to one that begins a script.
    pub fn answer(&mut self, line: &str) -> Result<Option<Value>> {
        if let Some(names) = line.strip_prefix("ways") {
            self.ways = ways_of(names.trim())?;
            return Ok(None);
        }
        if line.trim() == "state" {
            return Ok(Some(state(self.play.as_ref().context("there is no script yet")?)));
        }
        match (spoken(line, self.play.as_ref().map(Play::seats))?, &mut self.play) {
            (Spoken::Seats(seats), play) => *play = Some(Play::new(seats, self.ways)),
            (Spoken::Line(seat, line), Some(play)) => return Ok(Some(told(play, seat, line))),
            _ => {}
        }
        Ok(None)
    }
}

fn told(play: &mut Play, seat: Seat, line: Line) -> Value {
    let keyed = play.keyed(seat, &line);
    let Said { own, others } = play.line(seat, line);
    let said: Vec<Value> = std::iter::once((seat, own)).chain(others).map(|(seat, text)| json!([seat, text])).collect();
    let plain: Vec<Value> = play.plain.iter().map(|it| json!([it.line, it.told])).collect();
    let asked: Vec<String> = play.space.asked().iter().map(|it| it.to_string()).collect();
    json!({ "keyed": keyed, "said": said, "plain": plain, "asked": asked })
}

fn state(play: &Play) -> Value {
    let space = &play.space;
    let threads: Vec<Value> = space.threads.iter().map(|it| thread(play, it.0, it.1)).collect();
    let processes: Vec<Value> = space.processes.iter().map(|it| process(space, it.0, it.1)).collect();
    let manager = space.manager.and_then(|it| space.processes.get(it.0)).map(|it| it.pid);
    json!({ "threads": threads, "processes": processes, "manager": manager })
}

fn thread(play: &Play, seat: Seat, it: &Thread) -> Value {
    let space = &play.space;
    json!({
        "seat": seat,
        "pid": space.processes.get(it.process).map_or(0, |it| it.pid),
        "looping": it.is_looping,
        "waits": play.waits(seat),
        "ready": space.list_to_read(seat).is_some(),
        "owed": it.todo.len(),
        "serves": space.innermost(seat).map_or(false, |it| it.1.server == Server::Seat(seat)),
    })
}

/// A process, with what it has in the order in which that came to it.
fn process(space: &Space, id: ProcessId, it: &Process) -> Value {
    let mut handed: Vec<&Buffer> = it.buffers.iter().map(|it| it.1).filter(|it| it.is_handed).collect();
    handed.sort_by_key(|it| it.sent);
    let parcels: Vec<u64> = handed.iter().map(|it| it.key).collect();
    let mut objects: Vec<(u64, &Object)> = space
        .objects
        .iter()
        .filter(|(object, its)| object.0 == id && its.owner_lives)
        .map(|(object, its)| (object.1, its))
        .collect();
    objects.sort_by_key(|it| it.1.made);
    let objects: Vec<Value> =
        objects.iter().map(|(ptr, its)| json!({ "ptr": ptr, "cookie": its.cookie, "owed": its.handshake })).collect();
    let mut names: Vec<(u32, &Name)> = it.names.iter().collect();
    names.sort_by_key(|it| (it.1.by.0, it.0));
    let names: Vec<Value> = names.iter().map(|(handle, its)| name(it, *handle, its)).collect();
    let cookie = |number: &u64| it.deaths.iter().find(|it| it.number == *number).map(|it| it.cookie);
    let deaths: Vec<u64> = it.told.iter().filter_map(cookie).collect();
    json!({ "pid": it.pid, "parcels": parcels, "objects": objects, "names": names, "told": deaths })
}

/// A name: how many references give it, how many of those what buffers carry, and the cookie of its death notification.
fn name(process: &Process, handle: u32, it: &Name) -> Value {
    let entries =
        || process.buffers.iter().flat_map(|it| it.1.entries.iter()).filter(|entry| entry.object == it.object);
    let carried = [WEAK, STRONG].map(|strength| entries().filter(|it| it.strength == strength).count());
    let death = it.death.and_then(|number| process.deaths.iter().find(|it| it.number == number)).map(|it| it.cookie);
    json!({ "number": handle, "count": [it.count(WEAK), it.count(STRONG)], "carried": carried, "death": death })
}
