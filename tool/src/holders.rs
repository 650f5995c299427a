// SPDX-License-Identifier: Apache-2.0 OR MIT
//! Who holds an object, and what is held too long.
use crate::following::{ObjectId, Space, STRONG, WEAK};
use crate::play::Player;
use crate::rules::{self, Buffer, Process, ProcessId, FIRST_POINTER};
use crate::show::{code_words, object_words};
use anyhow::{bail, Result};
use std::cmp::Reverse;
use std::collections::BTreeMap;
use std::io::{self, Write};

/// At how many places of a journal one looks whether something grows.
const LOOKS: u64 = 8;

/// Prints everything that holds an object.
pub fn put_holders(to: &mut Vec<u8>, space: &Space, object: ObjectId) -> Result<()> {
    let (its, it) = match space.object(object) {
        Some(found) => found,
        None => bail!("after {} steps there is no object {object}; `state` prints those that there are", space.made()),
    };
    let references = space.references(its);
    let lives = if it.owner_lives { "" } else { ", which has ended" };
    writeln!(to, "object {}{lives}, ptr {:#x} cookie {:#x}", object_words(space, object), its.1, it.cookie)?;
    writeln!(to, "references: {} strong, {} weak", references[STRONG], references[WEAK])?;
    if space.manager == Some(its) {
        writeln!(to, "  strong: it is the context manager's")?;
    }
    for (strength, word) in [(STRONG, "strong"), (WEAK, "weak")] {
        if it.handshake[strength] {
            writeln!(to, "  {word}: pid {} was told of it, and hasn't acknowledged that", it.owner_pid)?;
        }
    }
    for (id, process) in space.processes.iter() {
        put_names(to, space, id, its)?;
        for (place, buffer) in process.buffers.iter() {
            put_buffer(to, process, FIRST_POINTER + place, buffer, its)?;
        }
    }
    Ok(())
}

fn put_names(to: &mut Vec<u8>, space: &Space, process: ProcessId, object: rules::ObjectId) -> io::Result<()> {
    let (handle, its) = match (space.handle_of(process, object), space.processes.get(process)) {
        (Some(handle), Some(its)) => (handle, its),
        _ => return Ok(()),
    };
    let name = its.names.get(handle);
    let (pid, since) = (its.pid, name.and_then(|it| it.by.0).unwrap_or(0));
    writeln!(to, "  pid {pid} names it by handle {handle}, since {since}")?;
    for (strength, word) in [(STRONG, "strong"), (WEAK, "weak")] {
        let asked = name.map_or(0, |it| it.asked[strength]);
        if asked > 0 {
            writeln!(to, "    {word}: it asked for {asked}")?;
        }
    }
    Ok(())
}

fn put_buffer(
    to: &mut Vec<u8>,
    process: &Process,
    pointer: u64,
    buffer: &Buffer,
    object: rules::ObjectId,
) -> io::Result<()> {
    let pid = process.pid;
    let (made, from) = (buffer.sent, buffer.sender_pid);
    let carries = buffer.entries.iter().filter(|it| it.object == object);
    for carry in carries {
        let word = if carry.strength == 0 { "weak" } else { "strong" };
        writeln!(to, "  {word}: buffer {pointer:#x} of pid {pid} carries it, made at {made} by pid {from}")?;
    }
    if buffer.target == Some(object) {
        writeln!(to, "  strong: buffer {pointer:#x} of pid {pid} came by calling it, made at {made} by pid {from}")?;
    }
    Ok(())
}

/// What a process has, counted at one place.
#[derive(Clone, Copy, Debug, PartialEq, Eq)]
struct Look {
    place: u64,
    names: u64,
    asked: u64,
    objects: u64,
    buffers: u64,
}

fn look(space: &Space, id: ProcessId, process: &Process) -> Look {
    let asked = process.names.iter().flat_map(|(_, it)| it.asked).map(u64::from).sum();
    Look {
        place: space.made(),
        names: process.names.len() as u64,
        asked,
        objects: space.objects_owned(id).count() as u64,
        buffers: process.buffers.len() as u64,
    }
}

/// One of the numbers of a look.
type Count = fn(&Look) -> u64;

/// What was seen of each process.
type Looks = BTreeMap<ProcessId, Vec<Look>>;

/// Looks at all processes of a space.
fn look_at(space: &Space, looks: &mut Looks) {
    for (id, process) in space.processes.iter() {
        looks.entry(id).or_default().push(look(space, id, process));
    }
}

/// Whether numbers never fall, and grow at least twice.
fn grows(numbers: &[u64]) -> bool {
    let never_fall = numbers.windows(2).all(|it| it[0] <= it[1]);
    let steps = numbers.windows(2).filter(|it| it[0] < it[1]).count();
    never_fall && steps >= 2
}

fn put_growth(to: &mut Vec<u8>, pid: u32, looks: &[Look]) -> io::Result<()> {
    let parts: [(&str, Count); 4] = [
        ("handles", |it| it.names),
        ("references asked for", |it| it.asked),
        ("objects of its own", |it| it.objects),
        ("buffers", |it| it.buffers),
    ];
    for (what, of) in parts {
        let numbers: Vec<u64> = looks.iter().map(of).collect();
        if grows(&numbers) {
            let (first, last) = (looks[0].place, looks[looks.len() - 1].place);
            let told: Vec<_> = numbers.iter().map(u64::to_string).collect();
            writeln!(to, "pid {pid}: {what} grow, from place {first} to {last}: {}", told.join(", "))?;
        }
    }
    Ok(())
}

fn put_unfreed(to: &mut Vec<u8>, space: &Space, process: &Process, most: usize) -> io::Result<()> {
    let mut buffers: Vec<_> =
        process.buffers.iter().filter_map(|(at, it)| Some((it.read()?, FIRST_POINTER + at, it))).collect();
    if buffers.is_empty() {
        return Ok(());
    }
    buffers.sort_by_key(|it| (it.0, it.1));
    let (pid, count, used, size) = (process.pid, buffers.len(), process.used(), process.window);
    writeln!(to, "pid {pid}: {count} buffers were read and not freed; {used} of {size} bytes of its window are taken")?;
    for (read, pointer, buffer) in buffers.iter().take(most) {
        let (sent, needed, age) = (space.sent(buffer), buffer.needed, space.made().saturating_sub(*read));
        let what = match (sent.answers, sent.target) {
            (Some(call), _) => format!("the reply at {} to the call at {call}", sent.made),
            (None, Some(target)) => format!("the call at {} on {}", sent.made, object_words(space, target)),
            (None, None) => format!("the call at {}", sent.made),
        };
        let (from, code) = (sent.pid, code_words(sent.code));
        write!(to, "  buffer {pointer:#x} {needed} bytes, read at {read}, {age} entries ago: ")?;
        writeln!(to, "{what} from pid {from} code {code}")?;
    }
    if count > most {
        writeln!(to, "  and {} more", count - most)?;
    }
    Ok(())
}

fn put_asked(to: &mut Vec<u8>, space: &Space, most: usize) -> io::Result<()> {
    let of = |process: &Process| -> Vec<_> {
        let more = process.names.iter().filter(|(_, it)| it.asked[STRONG] > 1 || it.asked[WEAK] > 1);
        more.filter_map(|(handle, it)| Some((it.asked, process.pid, handle, space.id_of(it.object)?))).collect()
    };
    let mut asked: Vec<_> = space.processes.iter().flat_map(|it| of(it.1)).collect();
    asked.sort_by_key(|it| (Reverse(it.0.iter().copied().max()), it.1, it.2));
    for ([weak, strong], pid, handle, object) in asked.into_iter().take(most) {
        let object = object_words(space, object);
        writeln!(
            to,
            "pid {pid} asked for handle {handle}, {object}, more than once: {strong} strongly, {weak} weakly"
        )?;
    }
    Ok(())
}

/// Goes to the end, and looks on the way; a journal that breaks off before it has no more looks from there on.
fn look_often(player: &mut Player, end: u64, looks: &mut Looks) -> Result<()> {
    for part in 1..=LOOKS {
        // The heading may claim any number, so the product may not be made before the quotient.
        let to = end / LOOKS * part + end % LOOKS * part / LOOKS;
        player.play(to)?;
        look_at(&player.space, looks);
        if player.source.place() < to {
            break;
        }
    }
    Ok(())
}

/// Buffers that were read and not freed, references that were asked for again and again, and what grows.
pub fn put_leaks(to: &mut Vec<u8>, player: &mut Player, place: Option<u64>, most: usize) -> Result<()> {
    let mut looks = Looks::new();
    match place.or(player.source.heading().count) {
        Some(end) => look_often(player, end, &mut looks)?,
        None => player.play(u64::MAX)?,
    }
    if let Some(place) = place {
        player.until(place)?;
    }
    let space = &player.space;
    writeln!(to, "after {} steps", space.made())?;
    let before = to.len();
    space.processes.iter().try_for_each(|it| put_unfreed(to, space, it.1, most))?;
    put_asked(to, space, most)?;
    for (id, process) in space.processes.iter() {
        put_growth(to, process.pid, looks.get(&id).map_or(&[], |it| &it[..]))?;
    }
    if to.len() == before {
        writeln!(to, "nothing is held: each buffer that was read is freed, and nothing grows")?;
    }
    Ok(())
}

#[cfg(test)]
mod tests {
    use super::*;

    #[test]
    fn what_falls_once_does_not_grow() {
        assert!(grows(&[1, 2, 2, 5]));
        assert!(!grows(&[1, 2, 1, 5]));
        assert!(!grows(&[1, 1, 2, 2]));
        assert!(!grows(&[3]));
    }
}
