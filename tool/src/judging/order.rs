// SPDX-License-Identifier: Apache-2.0 OR MIT
//! An order that was found, as a journal with times and names beside it (docs/FORMATS.md), for all that shows journals.
use super::machine::{Came, Machine};
use super::steps::*;
use crate::codes::Payload;
use crate::rules::{Seat, Space, Told, Ways};
use crate::who::NOT_RECORDED;
use anyhow::{Context, Result};
use std::fmt::Write as _;
use std::fs;

/// The third version has no place for fewer seats.
const LEAST_SEATS: usize = 32;

fn block(to: &mut Vec<u8>, bytes: &[u8]) {
    to.extend((bytes.len() as u32).to_le_bytes());
    to.extend(bytes);
}

/// In how many parts each step of each track is, as it was recorded.
fn parts_counted(recording: &Recording) -> Vec<Vec<usize>> {
    let counted = |track: &Track| {
        let mut counts = vec![0; track.parts_of.last().map_or(0, |it| *it as usize + 1)];
        track.parts_of.iter().for_each(|it| counts[*it as usize] += 1);
        counts
    };
    recording.tracks.iter().map(counted).collect()
}

/// An order as it is where the same recording is in fewer parts: a step that has fewer is made where its first ones were, or its last.
pub fn carried(from: &Recording, order: &[u32], to: &Recording, at_first: bool) -> Vec<u32> {
    let (counts, wants) = (parts_counted(from), parts_counted(to));
    let mut seen: Vec<Vec<usize>> = counts.iter().map(|it| vec![0; it.len()]).collect();
    let (mut done, mut carried) = (vec![0usize; from.tracks.len()], Vec::with_capacity(order.len()));
    for number in order {
        let track = *number as usize;
        let part = from.tracks[track].parts_of[done[track]] as usize;
        done[track] += 1;
        let (count, wanted, place) = (counts[track][part], wants[track][part], seen[track][part]);
        seen[track][part] += 1;
        if if at_first { place < wanted } else { place + wanted >= count } {
            carried.push(*number);
        }
    }
    carried
}

/// Whether all steps come one after the other so, by the clock and by the rules.
pub fn holds(recording: &Recording, ways: Ways, order: &[u32]) -> bool {
    let machine = Machine::new(recording);
    let (mut space, mut done) = (Space::new(ways), vec![0; recording.tracks.len()]);
    for track in order.iter().map(|it| *it as usize) {
        let bound = machine.heads(&done).map(|it| it.1.end).min().unwrap_or(NEVER);
        let step = machine.step(track, done[track]).filter(|it| it.begin <= bound);
        let is_made = step.and_then(|it| machine.make(&mut space, &done, track, it)).is_some();
        if !is_made {
            return false;
        }
        done[track] += 1;
    }
    machine.is_over(&done)
}

#[derive(Default)]
pub struct Written {
    entries: Vec<u8>,
    pub count: u64,
    times: Vec<u8>,
    last: u64,
    who: String,
    /// Of a transaction in halves, the first one.
    halves: std::collections::HashMap<usize, Command>,
}

fn command_step(command: &Command, message: &crate::codes::Message) -> Vec<u8> {
    let mut bytes = command.bytes.to_vec();
    if let Payload::Buffer(pointer) = message.payload {
        bytes[4..12].copy_from_slice(&pointer.to_le_bytes());
    }
    let mut step = vec![3];
    block(&mut step, &bytes);
    match &command.parcel {
        Some((data, offsets)) => {
            step.push(1);
            block(&mut step, data);
            block(&mut step, offsets);
        }
        None => step.push(0),
    }
    step
}

fn numbers(kind: u8, numbers: &[u32]) -> Vec<u8> {
    let mut step = vec![kind];
    numbers.iter().for_each(|it| step.extend(it.to_le_bytes()));
    step
}

fn answer(came: &Came, is_read: bool) -> Vec<u8> {
    match came {
        Came::Opened => vec![0],
        Came::Set(true) => vec![1],
        Came::Set(false) => vec![7, 10],
        Came::Exited => vec![2],
        Came::Told(Told::Accepted) => vec![3],
        Came::Told(Told::Noted(number)) => vec![4, *number],
        Came::Told(Told::Stopped(number)) => vec![5, *number],
        Came::Told(Told::Invalid) => vec![4, 4],
        Came::Got(got) => {
            let mut answer = vec![6];
            [&got.stream[..], &got.data, &got.offsets].iter().for_each(|it| block(&mut answer, it));
            answer
        }
        Came::Nothing | Came::Half => vec![7, if is_read { 12 } else { 4 }],
    }
}

/// A thread's name as `JOURNAL.who` spells it.
fn spelled(name: &str) -> String {
    name.bytes().fold(String::new(), |mut text, it| {
        match it {
            b' '..=b'~' if it != b'\\' => text.push(it as char),
            _ => {
                let _ = write!(text, "\\x{it:02x}");
            }
        }
        text
    })
}

impl Written {
    fn step(&mut self, machine: &Machine<'_>, space: &Space, track: usize, step: &Step) -> Option<Vec<u8>> {
        let process = &machine.recording.processes[machine.recording.tracks[track].process];
        Some(match &step.act {
            Act::Open => numbers(0, &[process.model_pid, process.euid, process.window as u32]),
            Act::Attach => numbers(1, &[process.model_pid]),
            Act::Manager => vec![2],
            Act::Spam(on) => vec![7, u8::from(*on)],
            Act::ExitThread => vec![5],
            Act::End => vec![6],
            Act::Read(limit) => numbers(4, &[machine.limit(*limit)]),
            Act::Command(command) => command_step(command, &machine.message(space, track as Seat, command)),
            Act::Number(command) => {
                self.halves.insert(track, command.clone());
                return None;
            }
            Act::Queue => {
                let command = self.halves.remove(&track)?;
                let message = command.message;
                command_step(&command, &message)
            }
            Act::Hold(_) | Act::Finish | Act::EndPart(_) => return None,
        })
    }

    fn name(&mut self, machine: &Machine<'_>, track: usize, step: &Step) {
        let its = &machine.recording.tracks[track];
        let pid = machine.recording.processes[its.process].pid;
        // Of a thread without a number there is none beside the journal either.
        let tid = its.tid.map(|it| if pid == NOT_RECORDED { 0 } else { it });
        let place = self.count;
        let _ = match (&step.act, tid) {
            (Act::Attach, Some(tid)) => writeln!(self.who, "{place} {track} {pid} {tid} {}", spelled(&its.name)),
            (Act::Attach, None) => writeln!(self.who, "{place} {track} {pid} {pid} {}", spelled(&its.name)),
            (Act::Open, _) => writeln!(self.who, "{place} {track} {pid} {pid} (process)"),
            _ => Ok(()),
        };
    }

    fn entry(&mut self, seat: usize, step: &[u8], answer: &[u8], at: u64) {
        self.entries.extend((seat as u32).to_le_bytes());
        block(&mut self.entries, step);
        block(&mut self.entries, answer);
        self.count += 1;
        self.last = self.last.max(at);
        self.times.extend(self.last.to_le_bytes());
    }

    /// Makes the steps of an order once more.
    pub fn of(recording: &Recording, ways: Ways, order: &[u32]) -> Result<Written> {
        let machine = Machine::new(recording);
        let (mut space, mut done) = (Space::new(ways), vec![0; recording.tracks.len()]);
        let mut written = Written::default();
        for track in order.iter().map(|it| *it as usize) {
            let step = machine.step(track, done[track]).context("the order has a step too many")?;
            let told = written.step(&machine, &space, track, step);
            let came = machine.make(&mut space, &done, track, step).context("the order is none any more")?;
            done[track] += 1;
            if let Some(told) = told {
                written.name(&machine, track, step);
                let at = step.at.clamp(step.begin, step.end.max(step.begin));
                written.entry(track, &told, &answer(&came, matches!(step.act, Act::Read(_))), at);
            }
        }
        Ok(written)
    }

    pub fn save(&self, recording: &Recording, ways: Ways, path: &str) -> Result<()> {
        let mut journal = b"BNDJ0003".to_vec();
        journal.extend((recording.tracks.len().max(LEAST_SEATS) as u32).to_le_bytes());
        journal.extend(self.count.to_le_bytes());
        journal.extend(&self.entries);
        fs::write(path, journal).with_context(|| path.to_string())?;
        let times = [&b"HPTIMES1"[..], &recording.ahead.to_le_bytes(), &self.times].concat();
        fs::write(format!("{path}.times"), times)?;
        crate::beside::put_ways(path, ways)?;
        let device = recording.processes.first().map_or("", |it| &it.device);
        fs::write(format!("{path}.who"), format!("HPWHO 1 {}\n{}", spelled(device), self.who))?;
        Ok(())
    }
}
