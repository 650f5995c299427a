// SPDX-License-Identifier: Apache-2.0 OR MIT
//! A trace of Perfetto's own: packets of protobuf, of which those with ftrace's events and with processes are read. Events stand by
//! processor there, so the whole file is read before the first is told.
use super::ftrace::{Line, Passing, Transaction, What};
use anyhow::{bail, ensure, Context, Result};
use std::collections::HashMap;
use std::io::{BufRead, Read};

/// No packet is larger, in bytes: traced hands over less than a page of shared memory at a time, and puts these together.
const MOST_PACKET: u64 = 1 << 26;
/// More events of Binder's, and more threads, are read of no trace: 64 and some 100 bytes each.
const MOST_EVENTS: usize = 1 << 24;
const MOST_THREADS: usize = 1 << 17;
/// Nor are more events described: a kernel has some 2,000 kinds.
const MOST_DESCRIBED: usize = 1 << 14;

/// The numbers of fields, each of its message, as Perfetto 56 writes them.
mod field {
    pub const PACKET: u64 = 1;
    pub const OF_FTRACE: u64 = 1;
    pub const OF_PROCESSES: u64 = 2;
    pub const COMPRESSED: u64 = 50;
    pub const EVENT: u64 = 2;
    pub const LOST: u64 = 3;
    pub const DESCRIPTION: u64 = 11;
    pub const TIME: u64 = 1;
    pub const THREAD: u64 = 2;
    pub const TRANSACTION: u64 = 50;
    pub const RECEIVED: u64 = 51;
    pub const BUFFER: u64 = 323;
    pub const COMMAND: u64 = 485;
    pub const RETURN: u64 = 486;
}

/// A field's value: a number, or bytes, which may be a message again.
#[derive(Clone, Copy, Debug)]
enum Value<'a> {
    Number(u64),
    Bytes(&'a [u8]),
}

impl Value<'_> {
    fn number(self) -> u64 {
        match self {
            Value::Number(number) => number,
            Value::Bytes(_) => 0,
        }
    }
}

/// The fields of a message, one after the other.
struct Fields<'a>(&'a [u8]);

/// A number in groups of seven bits, the lowest first, and what stands behind it.
pub fn varint(bytes: &[u8]) -> Option<(u64, &[u8])> {
    const MOST: usize = 10;
    let end = bytes.iter().take(MOST).position(|it| it & 0x80 == 0)?;
    let value = bytes[..=end].iter().rev().fold(0u64, |sum, it| sum << 7 | u64::from(it & 0x7f));
    Some((value, &bytes[end + 1..]))
}

impl<'a> Fields<'a> {
    /// So many bytes.
    fn take(&mut self, size: u64) -> Option<&'a [u8]> {
        let size = usize::try_from(size).ok().filter(|it| *it <= self.0.len())?;
        let (taken, rest) = self.0.split_at(size);
        self.0 = rest;
        Some(taken)
    }

    fn number(&mut self) -> Option<u64> {
        let (number, rest) = varint(self.0)?;
        self.0 = rest;
        Some(number)
    }

    /// A field with its number. None where it has none of the forms that there are, or goes on behind the message.
    fn field(&mut self) -> Option<(u64, Value<'a>)> {
        let mark = self.number()?;
        let value = match mark & 7 {
            0 => Value::Number(self.number()?),
            1 => Value::Bytes(self.take(8)?),
            2 => {
                let size = self.number()?;
                Value::Bytes(self.take(size)?)
            }
            5 => Value::Bytes(self.take(4)?),
            _ => return None,
        };
        Some((mark >> 3, value))
    }
}

impl<'a> Iterator for Fields<'a> {
    type Item = Result<(u64, Value<'a>)>;

    fn next(&mut self) -> Option<Self::Item> {
        if self.0.is_empty() {
            return None;
        }
        let found = self.field().context("a field makes no sense");
        if found.is_err() {
            self.0 = &[];
        }
        Some(found)
    }
}

/// The numbers that a message has in its first fields, 0 where it hasn't one: a trace leaves out none that is asked for here.
fn numbers<const N: usize>(message: &[u8]) -> Result<[u64; N]> {
    let mut found = [0; N];
    for field in Fields(message) {
        let (number, value) = field?;
        let place = number.checked_sub(1).and_then(|it| usize::try_from(it).ok());
        if let Some(place) = place.and_then(|it| found.get_mut(it)) {
            *place = value.number();
        }
    }
    Ok(found)
}

/// A number of 32 bits, which a negative one fills up to 64.
fn of_32(number: u64) -> Result<u32> {
    const NEGATIVE: u64 = u64::MAX >> 31;
    ensure!(number >> 32 == 0 || number >> 31 == NEGATIVE, "{number} has more than 32 bits");
    Ok(number as u32)
}

/// What an event tells, by its field; None where it isn't one that is looked at.
fn what(number: u64, message: &[u8]) -> Result<Option<What>> {
    Ok(Some(match number {
        field::TRANSACTION => {
            let [number, node, process, thread, reply, code, flags] = numbers(message)?;
            What::Transaction(Transaction {
                number,
                node,
                process: of_32(process)?,
                thread: of_32(thread)?,
                is_reply: reply != 0,
                flags: of_32(flags)?,
                code: of_32(code)?,
            })
        }
        field::RECEIVED => What::Received(numbers::<1>(message)?[0]),
        field::BUFFER => {
            let [data, number, offsets] = numbers(message)?;
            What::Buffer(number, data.saturating_add(offsets))
        }
        field::COMMAND => What::Command(of_32(numbers::<1>(message)?[0])?),
        field::RETURN => What::Return(of_32(numbers::<1>(message)?[0])?),
        _ => return Ok(None),
    }))
}

/// The kernel's names of the fields that are looked at in events for which Perfetto has no messages, and which it describes itself.
const NAMES: [&[u8]; 5] = [b"debug_id", b"node_debug_id", b"ref_desc", b"dest_ref_desc", b"node_ptr"];

/// An event that the trace describes: its name, and which of its message's fields have these names.
#[derive(Debug, Default)]
struct Described {
    name: Vec<u8>,
    fields: [u64; NAMES.len()],
}

impl Described {
    /// Reads a description: the number by which such events go, a message's description as protobuf has it, and the events' group.
    fn read(description: &[u8]) -> Result<(u64, Described)> {
        let (mut number, mut described) = (0, Described::default());
        for field in Fields(description) {
            match field? {
                (1, Value::Number(it)) => number = it,
                (2, Value::Bytes(message)) => described.read_message(message)?,
                _ => {}
            }
        }
        Ok((number, described))
    }

    fn read_message(&mut self, message: &[u8]) -> Result<()> {
        for field in Fields(message) {
            match field? {
                (1, Value::Bytes(name)) => self.name = name.to_vec(),
                (2, Value::Bytes(field)) => self.read_field(field)?,
                _ => {}
            }
        }
        Ok(())
    }

    fn read_field(&mut self, field: &[u8]) -> Result<()> {
        let [_, _, number] = numbers(field)?;
        for it in Fields(field) {
            if let (1, Value::Bytes(name)) = it? {
                if let Some(at) = NAMES.iter().position(|it| *it == name) {
                    self.fields[at] = number;
                }
            }
        }
        Ok(())
    }

    /// What such an event tells; None where it isn't one that is looked at.
    fn what(&self, message: &[u8]) -> Result<Option<What>> {
        let mut values = [0; NAMES.len()];
        for field in Fields(message) {
            let (number, value) = field?;
            if let Some(at) = self.fields.iter().position(|it| *it == number) {
                values[at] = value.number();
            }
        }
        let [transaction, node, handle, other_handle, ptr] = values;
        let passing = |handle, ptr| Some(What::Passed(Passing { transaction, node, handle, ptr }));
        Ok(match &self.name[..] {
            b"binder_transaction_buffer_release" => Some(What::Released(transaction)),
            b"binder_transaction_node_to_ref" => passing(Some(of_32(handle)?), Some(ptr)),
            b"binder_transaction_ref_to_ref" => passing(Some(of_32(other_handle)?), None),
            b"binder_transaction_ref_to_node" => passing(None, None),
            _ => None,
        })
    }
}

/// An event of Binder's.
#[derive(Clone, Copy, Debug)]
pub struct Seen {
    pub time: u64,
    /// Which it is of those that were read.
    order: u32,
    pub tid: u32,
    pub what: What,
}

/// Who a thread is.
#[derive(Clone, Debug, Default)]
pub struct Known {
    pub process: Option<u32>,
    pub name: Vec<u8>,
}

/// All that is read of a trace.
#[derive(Debug, Default)]
pub struct Recording {
    /// In order of time.
    pub events: Vec<Seen>,
    threads: HashMap<u32, Known>,
    described: HashMap<u64, Described>,
    /// How often the kernel has said that it lost some.
    pub gaps: u64,
    /// Packets that are compressed, which aren't read.
    pub compressed: u64,
    /// Where a packet breaks off.
    pub cut: Option<u64>,
}

impl Recording {
    pub fn read(mut input: impl BufRead) -> Result<Recording> {
        let mut recording = Recording::default();
        let (mut at, mut packet) = (0, Vec::new());
        loop {
            match next_packet(&mut input, &mut packet) {
                Ok(Some(0)) => break,
                Ok(Some(size)) => {
                    recording.packet(&packet).with_context(|| format!("the packet at byte {at}"))?;
                    at += size;
                }
                Ok(None) => {
                    recording.cut = Some(at);
                    break;
                }
                Err(error) => return Err(error.context(format!("the packet at byte {at}"))),
            }
        }
        recording.events.sort_unstable_by_key(|it| (it.time, it.order));
        Ok(recording)
    }

    /// An event as a line of text would tell it.
    pub fn line(&self, event: &Seen) -> Line<'_> {
        let known = self.threads.get(&event.tid);
        let (comm, process) = known.map_or((&b""[..], None), |it| (&it.name[..], it.process));
        Line { comm, tid: event.tid, process, time: Some(event.time), event: b"", rest: b"" }
    }

    fn packet(&mut self, packet: &[u8]) -> Result<()> {
        for field in Fields(packet) {
            match field? {
                (field::OF_FTRACE, Value::Bytes(bundle)) => self.bundle(bundle)?,
                (field::OF_PROCESSES, Value::Bytes(tree)) => self.tree(tree)?,
                (field::COMPRESSED, _) => self.compressed += 1,
                _ => {}
            }
        }
        Ok(())
    }

    /// The events of a processor, and descriptions, which may stand behind them.
    fn bundle(&mut self, bundle: &[u8]) -> Result<()> {
        for field in Fields(bundle) {
            if let (field::DESCRIPTION, Value::Bytes(description)) = field? {
                let (number, described) = Described::read(description)?;
                ensure!(self.described.len() < MOST_DESCRIBED, "it describes more than {MOST_DESCRIBED} events");
                self.described.insert(number, described);
            }
        }
        for field in Fields(bundle) {
            match field? {
                (field::EVENT, Value::Bytes(event)) => self.event(event)?,
                (field::LOST, Value::Number(1)) => self.gaps += 1,
                _ => {}
            }
        }
        Ok(())
    }

    fn event(&mut self, event: &[u8]) -> Result<()> {
        let (mut time, mut tid, mut told) = (0, 0, None);
        for field in Fields(event) {
            match field? {
                (field::TIME, Value::Number(number)) => time = number,
                (field::THREAD, Value::Number(number)) => tid = of_32(number)?,
                (number, Value::Bytes(message)) => told = self.what(number, message)?.or(told),
                _ => {}
            }
        }
        if let Some(what) = told {
            ensure!(self.events.len() < MOST_EVENTS, "there are more than {MOST_EVENTS} events of Binder's in it");
            self.events.push(Seen { time, order: self.events.len() as u32, tid, what });
        }
        Ok(())
    }

    fn what(&self, number: u64, message: &[u8]) -> Result<Option<What>> {
        match self.described.get(&number) {
            Some(described) => described.what(message),
            None => what(number, message),
        }
    }

    /// Processes by their command lines, and threads by their names.
    fn tree(&mut self, tree: &[u8]) -> Result<()> {
        const PROCESS: u64 = 1;
        const THREAD: u64 = 2;
        for field in Fields(tree) {
            match field? {
                (PROCESS, Value::Bytes(process)) => self.process(process)?,
                (THREAD, Value::Bytes(thread)) => self.named(thread)?,
                _ => {}
            }
        }
        Ok(())
    }

    fn known(&mut self, tid: u32) -> Result<&mut Known> {
        let is_new = !self.threads.contains_key(&tid);
        ensure!(!is_new || self.threads.len() < MOST_THREADS, "there are more than {MOST_THREADS} threads in it");
        Ok(self.threads.entry(tid).or_default())
    }

    fn process(&mut self, process: &[u8]) -> Result<()> {
        const COMMAND_LINE: u64 = 3;
        let pid = of_32(numbers::<1>(process)?[0])?;
        let line = Fields(process).flatten().find_map(|it| match it {
            (COMMAND_LINE, Value::Bytes(word)) => Some(word),
            _ => None,
        });
        let known = self.known(pid)?;
        known.process = Some(pid);
        if known.name.is_empty() {
            known.name = line.and_then(|it| it.rsplit(|it| *it == b'/').next()).unwrap_or_default().to_vec();
        }
        Ok(())
    }

    fn named(&mut self, thread: &[u8]) -> Result<()> {
        const NAME: u64 = 2;
        let [tid, _, process] = numbers(thread)?;
        let name = Fields(thread).flatten().find_map(|it| match it {
            (NAME, Value::Bytes(name)) => Some(name),
            _ => None,
        });
        let process = of_32(process)?;
        let known = self.known(of_32(tid)?)?;
        known.process = known.process.or(Some(process).filter(|it| *it > 0));
        if let Some(name) = name {
            known.name = name.to_vec();
        }
        Ok(())
    }
}

/// Reads a packet, and gives its size with what stands before it; 0 behind the last, and None where it breaks off.
fn next_packet(input: &mut impl BufRead, packet: &mut Vec<u8>) -> Result<Option<u64>> {
    let head = input.fill_buf()?;
    if head.is_empty() {
        return Ok(Some(0));
    }
    // (a mark and a length, which may stand at the end of what was read together)
    let mut begun = Vec::new();
    while begun.len() < 11 && (begun.len() < 2 || begun[begun.len() - 1] & 0x80 != 0) {
        let mut byte = [0];
        if input.read(&mut byte)? == 0 {
            return Ok(None);
        }
        begun.push(byte[0]);
    }
    ensure!(u64::from(begun[0]) == field::PACKET << 3 | 2, "it doesn't begin as a packet does");
    let (size, _) = varint(&begun[1..]).context("its length makes no sense")?;
    if size > MOST_PACKET {
        bail!("it is longer than {MOST_PACKET} bytes");
    }
    packet.clear();
    let read = input.take(size).read_to_end(packet)?;
    Ok((read as u64 == size).then(|| begun.len() as u64 + size))
}

#[cfg(test)]
mod tests {
    use super::*;

    fn number(mut value: u64) -> Vec<u8> {
        let mut bytes = Vec::new();
        while value > 0x7f {
            bytes.push(value as u8 | 0x80);
            value >>= 7;
        }
        bytes.push(value as u8);
        bytes
    }

    fn plain(field: u64, value: u64) -> Vec<u8> {
        [number(field << 3), number(value)].concat()
    }

    fn message(field: u64, bytes: &[u8]) -> Vec<u8> {
        [number(field << 3 | 2), number(bytes.len() as u64), bytes.to_vec()].concat()
    }

    fn event(time: u64, tid: u64, what: &[u8]) -> Vec<u8> {
        message(field::EVENT, &[&plain(field::TIME, time), &plain(field::THREAD, tid), what].concat())
    }

    fn packet(events: &[u8]) -> Vec<u8> {
        message(field::PACKET, &message(field::OF_FTRACE, events))
    }

    fn call() -> Vec<u8> {
        let numbers: Vec<u8> =
            (1..).zip([7, 3, 200, 0, 0, 0x5f50_4e47, 0x10]).flat_map(|it: (u64, u64)| plain(it.0, it.1)).collect();
        message(field::TRANSACTION, &numbers)
    }

    #[test]
    fn events_are_told_in_order_of_time_with_who_did_them() {
        let late = packet(&event(30, 201, &message(field::RECEIVED, &plain(1, 7))));
        let early = packet(&event(10, 101, &call()));
        let tree = [
            message(1, &[plain(1, 100), message(3, b"/usr/bin/caller"), message(3, b"word")].concat()),
            message(2, &[plain(1, 101), message(2, b"worker"), plain(3, 100)].concat()),
        ];
        let tree = message(field::PACKET, &message(field::OF_PROCESSES, &tree.concat()));
        let read = Recording::read(&[late, early, tree].concat()[..]).expect("a trace");
        let lines: Vec<_> = read.events.iter().map(|it| (it.time, read.line(it).comm.to_vec(), it.what)).collect();
        let transaction =
            Transaction { number: 7, node: 3, process: 200, flags: 0x10, code: 0x5f50_4e47, ..Transaction::default() };
        let wanted = [(10, b"worker".to_vec(), What::Transaction(transaction)), (30, Vec::new(), What::Received(7))];
        assert_eq!(lines, wanted);
        assert_eq!(read.line(&read.events[0]).process, Some(100));
        assert_eq!(read.threads[&100].name, b"caller");
    }

    /// As protobuf describes a message: its name, and each field with its name and number.
    #[test]
    fn events_that_the_trace_describes_are_read_by_their_names() {
        let of = |name: &str, number| message(2, &[plain(3, number), message(1, name.as_bytes())].concat());
        let fields =
            [of("dest_ref_desc", 6), of("node_debug_id", 2), of("debug_id", 1), of("src_ref_desc", 4)].concat();
        let described = [message(1, b"binder_transaction_ref_to_ref"), fields].concat();
        let description = message(field::DESCRIPTION, &[plain(1, 65551), message(2, &described)].concat());
        let passed = (1..).zip([17, 3, 4, 9, 18, 1]).flat_map(|it: (u64, u64)| plain(it.0, it.1)).collect::<Vec<u8>>();
        let bundle = [event(5, 7, &message(65551, &passed)), event(6, 7, &message(65552, b"")), description].concat();
        let read = Recording::read(&packet(&bundle)[..]).expect("a trace");
        let wanted = Passing { transaction: 17, node: 3, handle: Some(1), ptr: None };
        assert_eq!(read.events.iter().map(|it| it.what).collect::<Vec<_>>(), [What::Passed(wanted)]);
    }

    /// A negative number of 32 bits is written with 64.
    #[test]
    fn numbers_of_32_bits_are_told_apart() {
        assert_eq!([of_32(7).ok(), of_32(u64::MAX).ok(), of_32(1 << 32).ok()], [Some(7), Some(u32::MAX), None]);
    }

    #[test]
    fn what_is_lost_compressed_or_cut_is_counted() {
        let lost = packet(&plain(field::LOST, 1));
        let compressed = message(field::PACKET, &message(field::COMPRESSED, b"x"));
        let whole = [lost, compressed, packet(&event(1, 2, &call()))].concat();
        let read = Recording::read(&whole[..]).expect("a trace");
        assert_eq!((read.gaps, read.compressed, read.events.len(), read.cut), (1, 1, 1, None));
        let cut = Recording::read(&whole[..whole.len() - 1]).expect("a trace");
        assert_eq!(
            (cut.events.len(), cut.cut),
            (0, Some(whole.len() as u64 - packet(&event(1, 2, &call())).len() as u64))
        );
    }

    #[test]
    fn what_is_no_packet_is_named() {
        let fault = |bytes: &[u8]| format!("{:#}", Recording::read(bytes).expect_err("a fault"));
        assert_eq!(fault(b"\x0b\x01x"), "the packet at byte 0: it doesn't begin as a packet does");
        assert_eq!(fault(b"\x0a\xff\xff\xff\xff\x0f"), "the packet at byte 0: it is longer than 67108864 bytes");
        assert_eq!(fault(b"\x0a\x02\x0a\x09"), "the packet at byte 0: a field makes no sense");
    }
}
