// SPDX-License-Identifier: Apache-2.0 OR MIT
//! What is told of the place at which no order goes on.
use super::machine::Machine;
use super::steps::*;
use crate::codes::return_name;
use crate::record::{u32_at, u64_at};
use crate::rules::{Item, Seat, Space};
use std::fmt::Write as _;

fn item(item: &Item) -> String {
    match *item {
        Item::Notice(object) => format!("a notice of ptr {:#x}", object.1),
        Item::Complete(_) => "a completion".into(),
        Item::Refusal(code) | Item::Verdict(code) => return_name(code).into(),
        Item::Call(_) => "a call".into(),
        Item::Reply(_) => "a reply".into(),
        Item::Death(_) => "a death".into(),
        Item::Cleared(_) => "a cleared notification".into(),
    }
}

fn got(got: &Got) -> String {
    let words = |(code, word): &(u32, u64)| match word {
        0 => return_name(*code).to_string(),
        word => format!("{} {word:#x}", return_name(*code)),
    };
    got.kinds.iter().map(words).collect::<Vec<_>>().join(", ")
}

/// What a step is, in a few words.
pub fn step(step: &Step) -> String {
    match (&step.act, &step.wanted) {
        (Act::Open, _) => "opens the device".into(),
        (Act::Attach, _) => "makes its first call".into(),
        (Act::Manager, _) => "asks to be the context manager".into(),
        (Act::Spam(_), _) => "asks for reports of flooding".into(),
        (Act::ExitThread, _) => "leaves".into(),
        (Act::End, _) => "ends".into(),
        (Act::EndPart(Part::Objects), _) => "has ended, and its objects go".into(),
        (Act::EndPart(Part::Names), _) => "has ended, and its names go".into(),
        (Act::EndPart(Part::Rest), _) => "has ended, and what it hadn't read goes".into(),
        (Act::Command(command), wanted) => {
            let mut text = command.message.code.name.to_string();
            if let crate::codes::Payload::Handle(handle) = command.message.payload {
                let _ = write!(text, " of handle {handle}");
            }
            if let Some(record) = command.message.record() {
                let _ = write!(text, " to handle {} code {:#x}", record.handle(), record.code);
            }
            match wanted {
                Wanted::Taken => text + ", which was taken",
                Wanted::Refused => text + ", which was refused",
                Wanted::Fails => text + ", which failed",
                _ => text,
            }
        }
        (Act::Hold(_), _) => "begins to send its parcel".into(),
        (Act::Number(_), _) => "numbers the objects of its parcel".into(),
        (Act::Queue, _) => "queues its parcel".into(),
        (Act::Finish, _) => "lets go of names".into(),
        (Act::Read(_), Wanted::Got(it)) => format!("reads {}", got(it)),
        (Act::Read(_), _) => "reads, and there is nothing".into(),
    }
}

/// Of a parcel with objects, which handles its reader has got, and which it would get by the rules.
fn handles(machine: &Machine<'_>, space: &Space, track: usize, step: &Step) -> Option<String> {
    let command = match &step.act {
        Act::Command(command) | Act::Number(command) => command,
        _ => return None,
    };
    let got = machine.arrival(step.id)?;
    let mut space = space.clone();
    let parcel = command.parcel.as_ref().map(|it| (&*it.0, &*it.1));
    let (receiver, place) = space.prepare(track as Seat, &command.message, parcel).delivered.ok()?;
    let ours = &space.processes.get(receiver)?.buffers.get(place)?.data;
    let at = |data: &[u8]| {
        got.offsets.chunks_exact(8).map(|it| u32_at(data, u64_at(it, 0) as usize + 8)).collect::<Vec<_>>()
    };
    let has = |number: u32| space.processes.get(receiver).map_or(false, |it| it.names.has(number));
    Some(at(&got.data).iter().zip(at(ours)).filter(|it| *it.0 != it.1).fold(
        String::new(),
        |mut text, (theirs, ours)| {
            let taken = if has(*theirs) { ", where that one still has another" } else { "" };
            let _ = write!(text, "; its object came as handle {theirs}, and would by the rules as {ours}{taken}");
            text
        },
    ))
}

/// What each track would have to do next, and what there is for it by the rules.
pub fn heads(machine: &Machine<'_>, space: &Space, done: &[u32]) -> Vec<String> {
    let mut found = Vec::new();
    for (number, track) in machine.recording.tracks.iter().enumerate() {
        let next = match machine.step(number, done[number]) {
            Some(step) if track.tid.is_some() => step,
            _ => continue,
        };
        let todo = space.list_to_read(number as Seat).and_then(|it| space.list(it));
        let items =
            todo.map_or(String::new(), |it| it.iter().take(4).map(|it| item(&it.item)).collect::<Vec<_>>().join(", "));
        let pid = machine.recording.processes[track.process].pid;
        found.push((
            next.end,
            format!(
                "{pid}/{} {} [{} {}]; by the rules there is for it: {}{}",
                track.tid.unwrap_or(0),
                step(next),
                next.begin / 1000,
                if next.end == NEVER { "-".into() } else { (next.end / 1000).to_string() },
                if items.is_empty() { "nothing" } else { &items },
                handles(machine, space, number, next).unwrap_or_default()
            ),
        ));
    }
    found.sort();
    found.into_iter().map(|it| it.1).collect()
}
