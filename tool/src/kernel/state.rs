// SPDX-License-Identifier: Apache-2.0 OR MIT
//! The driver's files `state`, `proc/PID` and `transactions`: what each process has at one moment. Of a process, a thread or a node its
//! own line stands first, and what it has stands behind it, further in.
use super::lines::{digits_of, number, number_u32, shown, words, Lines};
use anyhow::{bail, Result};
use std::convert::TryFrom;

/// More things than this are taken from no file; each has some 200 bytes.
const MOST: usize = 1 << 19;

/// A call or a reply that is under way.
#[derive(Clone, Debug, Default, PartialEq, Eq)]
pub struct Transaction {
    pub number: u64,
    /// `outgoing`, `incoming`, `pending`, `pending async` or `bad`.
    pub way: &'static str,
    pub from: (u32, u32),
    pub to: (u32, u32),
    pub code: u32,
    pub flags: u32,
    pub needs_reply: bool,
    pub node: Option<u64>,
    pub size: Option<(u64, u64)>,
}

/// What stands on a list to be read.
#[derive(Clone, Debug, PartialEq, Eq)]
pub enum Work {
    Transaction(Transaction),
    /// A notice to the owner of this node.
    Node(u64),
    /// Anything else, in the kernel's words.
    Other(String),
}

#[derive(Clone, Debug, Default)]
pub struct Thread {
    pub tid: u32,
    pub looper: u32,
    pub transactions: Vec<Transaction>,
    pub work: Vec<Work>,
}

#[derive(Clone, Debug, Default)]
pub struct Node {
    pub number: u64,
    pub ptr: u64,
    pub cookie: u64,
    /// What its owner was told: strong, weak; what holds it in the driver itself; how many handles do.
    pub told: [u64; 2],
    pub local: [u64; 2],
    pub handles: u64,
    pub held_by: Vec<u32>,
    pub work: Vec<Work>,
}

#[derive(Clone, Debug, Default, PartialEq, Eq)]
pub struct Reference {
    pub number: u64,
    pub handle: u32,
    pub node: u64,
    pub is_dead: bool,
    pub strong: u64,
    pub weak: u64,
    pub asks_for_death: bool,
}

#[derive(Clone, Debug, Default, PartialEq, Eq)]
pub struct Buffer {
    /// The number of its call or reply.
    pub number: u64,
    pub data: u64,
    pub offsets: u64,
    pub more: u64,
    pub is_delivered: bool,
}

#[derive(Clone, Debug, Default)]
pub struct Process {
    pub pid: u32,
    pub context: String,
    pub threads: Vec<Thread>,
    pub nodes: Vec<Node>,
    pub references: Vec<Reference>,
    pub buffers: Vec<Buffer>,
    pub work: Vec<Work>,
}

impl Process {
    /// Whether it owns this node.
    pub fn has(&self, node: u64) -> bool {
        self.nodes.iter().any(|it| it.number == node)
    }
}

/// All that a file tells.
#[derive(Clone, Debug, Default)]
pub struct State {
    pub processes: Vec<Process>,
    /// Nodes whose owners have ended.
    pub dead_nodes: Vec<Node>,
    /// Whether it has nodes and handles: `transactions` hasn't.
    pub is_whole: bool,
}

/// The words of a line, and what they say behind a name.
struct Words<'a>(Vec<&'a [u8]>);

impl<'a> Words<'a> {
    fn at(&self, index: usize) -> Option<&'a [u8]> {
        self.0.get(index).copied()
    }

    fn is(&self, index: usize, word: &str) -> bool {
        self.at(index) == Some(word.as_bytes())
    }

    /// The word behind this one.
    fn behind(&self, name: &str) -> Option<&'a [u8]> {
        let at = self.0.iter().position(|it| *it == name.as_bytes())?;
        self.at(at + 1)
    }

    fn number(&self, name: &str) -> Option<u64> {
        number(self.behind(name)?)
    }

    fn hex(&self, name: &str) -> Option<u32> {
        digits_of(self.behind(name)?, 16).and_then(|it| u32::try_from(it).ok())
    }

    /// A number with a colon behind it.
    fn headed(&self, index: usize) -> Option<u64> {
        number(self.at(index)?.strip_suffix(b":")?)
    }
}

/// Numbers with colons between them, two at least.
fn pair(word: &[u8]) -> Option<(u64, u64)> {
    let mut numbers = word.split(|it| *it == b':').map(number);
    Some((numbers.next()??, numbers.next()??))
}

fn party(word: &[u8]) -> Option<(u32, u32)> {
    let (process, thread) = pair(word)?;
    Some((process.try_into().ok()?, thread.try_into().ok()?))
}

fn way(words: &Words<'_>) -> Option<(&'static str, usize)> {
    let ways = [("outgoing", 2), ("incoming", 2), ("pending async", 3), ("pending", 2), ("bad", 2)];
    let is =
        |it: &(&str, usize)| it.0.split(' ').chain(["transaction"]).enumerate().all(|(at, word)| words.is(at, word));
    ways.into_iter().find(is)
}

fn transaction(words: &Words<'_>) -> Option<Transaction> {
    let (way, at) = way(words)?;
    let from = words.behind("from").and_then(party)?;
    let to = words.behind("to").and_then(party)?;
    let needs_reply = words.0.iter().any(|it| *it == b"r1");
    let (code, flags) = (words.hex("code")?, words.hex("flags")?);
    let (node, size) = (words.number("node"), words.behind("size").and_then(pair));
    Some(Transaction { number: words.headed(at)?, way, from, to, code, flags, needs_reply, node, size })
}

fn work(words: &Words<'_>) -> Option<Work> {
    if words.is(0, "node") && words.is(1, "work") {
        return words.headed(2).map(Work::Node);
    }
    if way(words).is_some() {
        return transaction(words).map(Work::Transaction);
    }
    let text: Vec<_> = words.0.iter().map(|it| String::from_utf8_lossy(it)).collect();
    let text = text.join(" ");
    let begins = ["transaction complete", "transaction error", "has ", "unknown work"];
    begins.iter().any(|it| text.starts_with(it)).then_some(Work::Other(text))
}

fn node(words: &Words<'_>) -> Option<Node> {
    let hex = |index: usize, letter: &[u8]| digits_of(words.at(index)?.strip_prefix(letter)?, 16);
    let held_by = words.0.iter().skip_while(|it| **it != b"proc").skip(1);
    Some(Node {
        number: words.headed(1)?,
        ptr: hex(2, b"u")?,
        cookie: hex(3, b"c")?,
        told: [words.number("hs")?, words.number("hw")?],
        local: [words.number("ls")?, words.number("lw")?],
        handles: words.number("is")?,
        held_by: held_by.map(|it| number_u32(it)).collect::<Option<_>>()?,
        work: Vec::new(),
    })
}

fn reference(words: &Words<'_>) -> Option<Reference> {
    let is_zero = |it: &[u8]| it.iter().all(|it| *it == b'0');
    let asks_for_death = words.behind("d").map_or(false, |it| !is_zero(it));
    Some(Reference {
        number: words.headed(1)?,
        handle: number_u32(words.behind("desc")?)?,
        node: words.number("node")?,
        is_dead: words.0.iter().any(|it| *it == b"dead"),
        strong: words.number("s")?,
        weak: words.number("w")?,
        asks_for_death,
    })
}

fn buffer(words: &Words<'_>) -> Option<Buffer> {
    let sizes: Vec<u64> = words.behind("size")?.split(|it| *it == b':').map(number).collect::<Option<_>>()?;
    let of = |index: usize| sizes.get(index).copied().unwrap_or(0);
    let is_delivered = words.0.last() == Some(&&b"delivered"[..]);
    Some(Buffer { number: words.headed(1)?, data: of(0), offsets: of(1), more: of(2), is_delivered })
}

fn thread(words: &Words<'_>) -> Option<Thread> {
    Some(Thread { tid: words.headed(1)?.try_into().ok()?, looper: words.hex("l")?, ..Thread::default() })
}

/// To what the next line belongs that stands further in.
#[derive(Clone, Copy, Debug, PartialEq, Eq)]
enum Within {
    Nothing,
    Process,
    Thread,
    Node,
    DeadNodes,
}

struct Reader {
    state: State,
    within: Within,
    count: usize,
}

impl Reader {
    /// Takes a line: whether it made sense.
    fn line(&mut self, line: &[u8]) -> Option<()> {
        let words = Words(words(line).collect());
        let first = match words.at(0) {
            Some(first) => first,
            None => return Some(()),
        };
        match first {
            b"binder" if words.0.last().map_or(false, |it| it.ends_with(b":")) => {
                self.within = Within::Nothing;
                Some(())
            }
            b"dead" if words.is(1, "nodes:") => {
                self.within = Within::DeadNodes;
                Some(())
            }
            b"proc" => {
                let pid = number_u32(words.at(1)?)?;
                self.state.processes.push(Process { pid, ..Process::default() });
                self.within = Within::Process;
                Some(())
            }
            b"node" if !words.is(1, "work") => self.add_node(node(&words)?),
            _ => self.of_process(first, &words),
        }
    }

    fn add_node(&mut self, node: Node) -> Option<()> {
        if self.within == Within::DeadNodes {
            self.state.dead_nodes.push(node);
            return Some(());
        }
        self.state.processes.last_mut()?.nodes.push(node);
        self.within = Within::Node;
        Some(())
    }

    fn of_process(&mut self, first: &[u8], words: &Words<'_>) -> Option<()> {
        let within = self.within;
        let process = match self.state.processes.last_mut() {
            Some(process) => process,
            // What a dead node has is nobody's.
            None if within == Within::DeadNodes => return Some(()),
            None => return None,
        };
        match first {
            b"context" => process.context = String::from_utf8_lossy(words.at(1)?).into_owned(),
            b"thread" => {
                process.threads.push(thread(words)?);
                self.within = Within::Thread;
            }
            b"ref" => process.references.push(reference(words)?),
            b"buffer" => process.buffers.push(buffer(words)?),
            _ => {
                let work = work(words)?;
                match (within, work) {
                    (Within::Thread, Work::Transaction(it)) if it.way != "pending" => {
                        process.threads.last_mut()?.transactions.push(it);
                    }
                    // A process's own list stands behind its nodes, handles and buffers, no deeper than these.
                    (Within::Thread, work) if process.nodes.is_empty() && process.buffers.is_empty() => {
                        process.threads.last_mut()?.work.push(work);
                    }
                    (Within::Node, Work::Transaction(it)) if it.way == "pending async" => {
                        process.nodes.last_mut()?.work.push(Work::Transaction(it));
                    }
                    (_, work) => process.work.push(work),
                }
            }
        }
        Some(())
    }
}

/// Reads a file's lines; what makes no sense is named.
pub fn read(lines: &mut Lines<'_>) -> Result<State> {
    let mut reader = Reader { state: State::default(), within: Within::Nothing, count: 0 };
    while let Some(line) = lines.next()? {
        let line = line.to_vec();
        add(&mut reader, &line, lines.number())?;
    }
    lines.check_end()?;
    Ok(finished(reader))
}

fn add(reader: &mut Reader, line: &[u8], number: u64) -> Result<()> {
    reader.count += 1;
    if reader.count > MOST {
        bail!("it has more than {MOST} lines, which no state of a kernel's has");
    }
    if line.starts_with(b"binder state:") || line.starts_with(b"binder proc state:") {
        reader.state.is_whole = true;
    }
    // Deeper lines are a thread's or a node's, others their process's again.
    let depth = line.iter().position(|it| *it != b' ').unwrap_or(0);
    if depth <= 2 && reader.within != Within::DeadNodes && reader.within != Within::Nothing {
        reader.within = Within::Process;
    }
    match reader.line(line) {
        Some(()) => Ok(()),
        None => bail!("line {number} makes no sense in a state: {}", shown(line)),
    }
}

fn finished(reader: Reader) -> State {
    reader.state
}

/// What the driver says of a thread by bits, in words.
pub fn looper_words(looper: u32) -> String {
    let bits = [
        (0x01, "registered"),
        (0x02, "in the loop"),
        (0x04, "left the loop"),
        (0x08, "entered it wrongly"),
        (0x10, "waits"),
        (0x20, "polls"),
    ];
    bits.iter().filter(|it| looper & it.0 != 0).map(|it| format!(", {}", it.1)).collect()
}

#[cfg(test)]
mod tests {
    use super::*;

    fn of(text: &str) -> Result<State> {
        read(&mut Lines::new(Box::new(text.as_bytes())))
    }

    /// Lines as 6.1 and 6.12 print them, and with what Android's kernels have besides.
    const TEXT: &str = "\
binder state:
dead nodes:
  node 7: u0000000000001010 c0000000000002001 hs 1 hw 1 ls 0 lw 0 is 1 iw 1 tr 1 proc 150
proc 151
context binder
  thread 151: l 00 need_return 0 tr 0
  thread 155: l 00 need_return 0 tr 0
    pending transaction 31: (____ptrval____) from 0:0 to 151:155 code 0 flags 10 pri 0 r0 size 0:0 data (____ptrval____)
  thread 156: l 12 need_return 0 tr 1
    outgoing transaction 33: 0000000000000000 from 151:156 to 150:0 code 101 flags 10 pri 0:120 r1 elapsed 12ms
    node work 36: u0000000000001010 c0000000000002001
    transaction complete
  node 23: u0000000000001010 c0000000000002001 pri 0:139 hs 1 hw 1 ls 2 lw 3 is 1 iw 1 tr 1 proc 150 160
    pending async transaction 44: (____ptrval____) from 150:150 to 151:0 code 7 flags 1 pri 0 r0 node 23 size 8:0 data (____ptrval____)
  ref 21: desc 1 dead node 20 s 1 w 2 d (____ptrval____)
  ref 24: desc 2 node 25 s 1 w 0 d 0000000000000000
  buffer 31: 0 size 24:8:16 active
  buffer 5: (____ptrval____) size 4:0:0 delivered
  pending transaction 45: (____ptrval____) from 150:150 to 151:0 code 9 flags 10 pri 0 r1 node 23 size 8:0 data (____ptrval____)
  has dead binder
";

    #[test]
    fn a_state_is_read_whole() {
        let state = of(TEXT).unwrap();
        assert!(state.is_whole);
        assert_eq!((state.dead_nodes.len(), state.processes.len()), (1, 1));
        let process = &state.processes[0];
        assert_eq!((process.pid, &process.context[..], process.threads.len()), (151, "binder", 3));
        assert_eq!(process.threads[1].work.len(), 1);
        let last = &process.threads[2];
        assert_eq!((last.looper, last.transactions.len(), last.transactions[0].number), (0x12, 1, 33));
        assert_eq!(last.work, [Work::Node(36), Work::Other("transaction complete".into())]);
        let node = &process.nodes[0];
        assert_eq!((node.number, node.ptr, node.local, &node.held_by[..]), (23, 0x1010, [2, 3], &[150, 160][..]));
        assert_eq!(node.work.len(), 1);
        let dead =
            Reference { number: 21, handle: 1, node: 20, is_dead: true, strong: 1, weak: 2, asks_for_death: true };
        assert_eq!(process.references[0], dead);
        assert!(!process.references[1].asks_for_death);
        assert_eq!(process.buffers[0], Buffer { number: 31, data: 24, offsets: 8, more: 16, is_delivered: false });
        assert!(process.buffers[1].is_delivered);
        assert_eq!(process.work.len(), 2);
    }

    #[test]
    fn what_makes_no_sense_is_named() {
        let bad = [
            ("binder state:\nproc x\n", "line 2 makes no sense in a state: \"proc x\""),
            ("binder state:\n  thread 5: l 00\n", "line 2 makes no sense in a state: \"  thread 5: l 00\""),
            ("binder state:\nproc 5\n  node 7: u1\n", "line 3 makes no sense in a state: \"  node 7: u1\""),
            ("binder state:\nproc 5\n  what\n", "line 3 makes no sense in a state: \"  what\""),
            ("binder state:\nproc 5", "line 2 breaks off; it is left out"),
            ("binder state:\nproc 99999999999\n", "line 2 makes no sense in a state: \"proc 99999999999\""),
        ];
        for (text, told) in bad {
            assert_eq!(of(text).unwrap_err().to_string(), told);
        }
    }

    #[test]
    fn no_file_is_held_that_is_too_long() {
        let text = "proc 5\n".repeat(MOST + 1);
        assert!(of(&text).unwrap_err().to_string().starts_with("it has more than 524288 lines"));
    }
}
