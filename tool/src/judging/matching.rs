// SPDX-License-Identifier: Apache-2.0 OR MIT
//! Where no trace tells which call a read has got: the one that alone fits, by what it says, when it can have been read, and how it was
//! replied to.
use super::steps::*;
use crate::codes::*;
use crate::record::{u64_at, Record, OBJECT_SIZE, RECORD_SIZE};
use std::collections::HashMap;

/// By what a call is known again: code, sender's pid or 0, flags, and its parcel without objects.
type Likeness = (u32, u32, u32, Vec<u8>);
/// A step, by its track and its place there.
type Place = (usize, usize);

/// A reply, as its sender wrote it or as the caller read it: when it was begun or was read, and its parcel without objects.
struct Reply {
    at: u64,
    parcel: Vec<u8>,
}

/// Of one thread, by the place of a call's read the reply that it wrote, and by the place of its own call the reply that it read.
#[derive(Default)]
struct Replies {
    written: HashMap<usize, Reply>,
    read: HashMap<usize, Reply>,
}

/// What a thread is amid: a call that it has read, or one of its own.
enum Amid {
    Call(usize),
    Own(usize),
}

struct Read {
    place: Place,
    begin: u64,
    end: u64,
}

/// A call, whether its reply was read, and the reads that may have got it.
struct Sent {
    place: Place,
    is_answered: bool,
    fits: Vec<Place>,
}

fn without_objects(data: &[u8], offsets: &[u8]) -> Vec<u8> {
    let mut known = data.to_vec();
    for at in offsets.chunks_exact(8).filter_map(|it| usize::try_from(u64_at(it, 0)).ok()) {
        let end = at.saturating_add(OBJECT_SIZE).min(known.len());
        if let Some(object) = known.get_mut(at..end) {
            object.fill(0);
        }
    }
    known.extend(offsets);
    known
}

fn record_of(got: &Got) -> Option<Record> {
    Some(Record::read(got.stream.get(got.stream.len().checked_sub(RECORD_SIZE)?..)?))
}

/// What has come last, where it is a call or a reply.
fn came(step: &Step) -> Option<(u32, &Got)> {
    match (&step.act, &step.wanted) {
        (Act::Read(_), Wanted::Got(got)) => Some((got.kinds.last()?.0, got)),
        _ => None,
    }
}

fn likeness_read(step: &Step) -> Option<Likeness> {
    let (_, got) = came(step).filter(|it| it.0 == BR_TRANSACTION)?;
    let record = record_of(got)?;
    Some((record.code, record.sender_pid as u32, record.flags, without_objects(&got.data, &got.offsets)))
}

fn likeness_sent(step: &Step, pid: u32) -> Option<Likeness> {
    let command = match &step.act {
        Act::Command(command) if command.message.code.number == BC_TRANSACTION => command,
        _ => return None,
    };
    let (record, (data, offsets)) = (command.message.record()?, command.parcel.as_ref()?);
    let pid = if record.is_one_way() { 0 } else { pid };
    Some((record.code, pid, record.flags, without_objects(data, offsets)))
}

/// When the reply to a call was read at the latest.
fn reply_after(steps: &[Step], call: usize) -> u64 {
    let is_end = |step: &&Step| match &step.wanted {
        Wanted::Got(got) => got.kinds.iter().any(|it| matches!(it.0, BR_REPLY | BR_DEAD_REPLY | BR_FAILED_REPLY)),
        _ => false,
    };
    steps[call..].iter().find(is_end).map_or(NEVER, |it| it.end)
}

impl Replies {
    /// What is known of a thread's replies, up to where it isn't certain which call it is amid.
    fn of(steps: &[Step]) -> Replies {
        let (mut found, mut amid) = (Replies::default(), Vec::new());
        for (index, step) in steps.iter().enumerate() {
            let is_known = match &step.act {
                Act::ExitThread => {
                    amid.clear();
                    true
                }
                Act::Command(command) => found.write(index, step, command, &mut amid),
                Act::Read(_) => found.take(index, step, &mut amid),
                _ => true,
            };
            if !is_known {
                break;
            }
        }
        found
    }

    fn write(&mut self, index: usize, step: &Step, command: &Command, amid: &mut Vec<Amid>) -> bool {
        let record = match command.message.record() {
            Some(record) => record,
            None => return true,
        };
        if command.message.code.number == BC_TRANSACTION {
            amid.extend(Some(Amid::Own(index)).filter(|_| !record.is_one_way()));
            return !matches!(step.wanted, Wanted::Fails);
        }
        match (amid.pop(), &command.parcel) {
            (Some(Amid::Call(read)), Some((data, offsets))) => {
                self.written.insert(read, Reply { at: step.begin, parcel: without_objects(data, offsets) });
                true
            }
            _ => false,
        }
    }

    fn take(&mut self, index: usize, step: &Step, amid: &mut Vec<Amid>) -> bool {
        let (last, got) = match came(step) {
            Some(it) => it,
            None => return true,
        };
        if got.kinds.iter().any(|it| matches!(it.0, BR_DEAD_REPLY | BR_FAILED_REPLY)) {
            return false;
        }
        match last {
            BR_TRANSACTION => {
                let is_two_way = record_of(got).map_or(false, |it| !it.is_one_way());
                amid.extend(Some(Amid::Call(index)).filter(|_| is_two_way));
                true
            }
            BR_REPLY => match amid.pop() {
                Some(Amid::Own(call)) => {
                    self.read.insert(call, Reply { at: step.end, parcel: without_objects(&got.data, &got.offsets) });
                    true
                }
                _ => false,
            },
            _ => true,
        }
    }
}

/// Which call each read may have got, and which reads may have got each call.
#[derive(Default)]
struct Matching {
    sent: Vec<Sent>,
    claims: HashMap<Place, Vec<usize>>,
}

impl Matching {
    fn of(recording: &Recording) -> Matching {
        let mut reads: HashMap<Likeness, Vec<Read>> = HashMap::new();
        for (number, track) in recording.tracks.iter().enumerate() {
            for (index, step) in track.steps.iter().enumerate() {
                if let Some(likeness) = likeness_read(step) {
                    let (place, begin, end) = ((number, index), step.begin, step.end);
                    reads.entry(likeness).or_default().push(Read { place, begin, end });
                }
            }
        }
        // Where calls are missing it isn't known which one a reply answers.
        let is_whole = recording.left_out.is_empty();
        let replies: Vec<Replies> = recording.tracks.iter().map(|it| Replies::of(&it.steps)).collect();
        let mut found = Matching::default();
        for (number, track) in recording.tracks.iter().enumerate() {
            let pid = recording.processes[track.process].pid;
            for (index, step) in track.steps.iter().enumerate() {
                let likeness = match likeness_sent(step, pid) {
                    Some(likeness) => likeness,
                    None => continue,
                };
                let until = if likeness.1 == 0 { NEVER } else { reply_after(&track.steps, index) };
                let reply = replies[number].read.get(&index).filter(|_| is_whole);
                let written = |it: &Read| replies[it.place.0].written.get(&it.place.1);
                let replied = |it: &Read| {
                    let both = reply.zip(written(it));
                    both.map_or(true, |(read, written)| written.at <= read.at && written.parcel == read.parcel)
                };
                let all = reads.get(&likeness).map_or(&[][..], |it| it);
                let in_time = all.iter().filter(|it| it.end >= step.begin && it.begin <= until && it.place.0 != number);
                let fits = in_time.filter(|it| replied(it)).map(|it| it.place).collect();
                found.add(Sent { place: (number, index), is_answered: reply.is_some(), fits });
            }
        }
        found
    }

    fn add(&mut self, sent: Sent) {
        let number = self.sent.len();
        sent.fits.iter().for_each(|it| self.claims.entry(*it).or_default().push(number));
        self.sent.push(sent);
    }

    /// A call that was answered was read: where one read alone fits, that read has got no other call.
    fn narrow(&mut self) {
        let is_certain = |it: &Sent| it.is_answered && it.fits.len() == 1;
        let mut certain: Vec<usize> = (0..self.sent.len()).filter(|it| is_certain(&self.sent[*it])).collect();
        while let Some(number) = certain.pop() {
            let read = match self.sent[number].fits[..] {
                [read] => read,
                _ => continue,
            };
            let others = self.claims.insert(read, vec![number]).unwrap_or_default();
            for other in others.into_iter().filter(|it| *it != number) {
                self.sent[other].fits.retain(|it| *it != read);
                certain.extend(Some(other).filter(|it| is_certain(&self.sent[*it])));
            }
        }
    }

    /// The calls and reads that are one another's only ones.
    fn pairs(&self) -> impl Iterator<Item = (Place, Place)> + '_ {
        self.sent.iter().enumerate().filter_map(move |(number, sent)| match sent.fits[..] {
            [read] if self.claims.get(&read).map_or(false, |it| it[..] == [number]) => Some((sent.place, read)),
            _ => None,
        })
    }
}

impl Recording {
    /// Numbers the transactions of which it is known which read has got them, as a trace would.
    pub(super) fn match_calls(&mut self) {
        if self.is_traced {
            return;
        }
        let mut matching = Matching::of(self);
        matching.narrow();
        for (number, (sent, read)) in matching.pairs().enumerate() {
            let id = Some(1 << 62 | number as u64);
            self.tracks[sent.0].steps[sent.1].id = id;
            self.tracks[read.0].steps[read.1].id = id;
        }
    }
}
