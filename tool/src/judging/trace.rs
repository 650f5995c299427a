// SPDX-License-Identifier: Apache-2.0 OR MIT
//! What the kernel's tracepoints told beside a recording: when each command was begun, and which transaction it was.
use std::collections::HashMap;

/// Of one call of BINDER_WRITE_READ.
#[derive(Debug, Default)]
pub struct Traced {
    pub begin: u64,
    /// When each command was begun.
    pub commands: Vec<u64>,
    /// When each return was written, but for BR_NOOP.
    pub returns: Vec<u64>,
    pub written: Option<u64>,
    pub waits: Option<u64>,
    pub read: Option<u64>,
    /// By the command's number: the transaction that it made, the one whose buffer it freed, when its objects got their numbers.
    pub sent: HashMap<usize, u64>,
    pub freed: HashMap<usize, u64>,
    pub numbered: HashMap<usize, (u64, u64)>,
    /// .. and when it was begun, or when its buffer's references were about to go: nothing that others see was done before.
    pub begun: HashMap<usize, u64>,
    /// .. and of a reply, whose call it answers: that thread.
    pub answered: HashMap<usize, u32>,
    /// The transaction that was read.
    pub received: Option<u64>,
}

/// By each thread, its calls of BINDER_WRITE_READ in their order.
pub type Trace = HashMap<u32, Vec<Traced>>;

/// What a line tells: the thread, the time in nanoseconds, the event's name without `binder_`, and its words.
fn line(line: &str) -> Option<(u32, u64, &str, &str)> {
    // ` NAME-TID   [CPU] FLAGS   SECONDS.MICROS: binder_EVENT: WORDS`; the name may hold nearly anything.
    let (head, words) = line.split_once(": binder_")?;
    let (before, flags) = head.rsplit_once('[')?;
    let tid = before.trim_end().rsplit_once('-')?.1.parse().ok()?;
    let (seconds, micros) = flags.rsplit_once(' ')?.1.split_once('.')?;
    let time = seconds.parse::<u64>().ok()?.checked_mul(1_000_000)?.checked_add(micros.parse().ok()?)?;
    let (name, words) = words.split_once(':')?;
    Some((tid, time.checked_mul(1000)?, name, words))
}

fn number(words: &str, name: &str) -> Option<u64> {
    words.split(' ').find_map(|it| it.strip_prefix(name)?.strip_prefix('=')).and_then(|it| it.parse().ok())
}

impl Traced {
    fn take(&mut self, name: &str, words: &str, at: u64) {
        let last = self.commands.len().wrapping_sub(1);
        let transaction = || number(words, "transaction");
        match name {
            "command" => self.commands.push(at),
            "return" => self.returns.push(at),
            "write_done" => self.written = Some(at),
            "wait_for_work" => self.waits = self.waits.or(Some(at)),
            "read_done" => self.read = Some(at),
            "transaction" => {
                self.sent.extend(transaction().map(|it| (last, it)));
                if number(words, "reply") == Some(1) {
                    self.answered.extend(number(words, "dest_thread").map(|it| (last, it as u32)));
                }
                self.begun.insert(last, at);
            }
            "transaction_received" => self.received = transaction(),
            "transaction_buffer_release" => {
                // A reply that ends a call may release others'; the first is the command's.
                if let Some(id) = transaction() {
                    self.freed.entry(last).or_insert(id);
                    self.begun.entry(last).or_insert(at);
                }
            }
            "transaction_node_to_ref" | "transaction_ref_to_node" | "transaction_ref_to_ref" => {
                self.numbered.entry(last).or_insert((at, at)).1 = at;
            }
            _ => {}
        }
    }
}

pub fn read(text: &str) -> Trace {
    const WRITE_READ: &str = "cmd=0xc0306201";
    let (mut found, mut now): (Trace, HashMap<u32, bool>) = (HashMap::new(), HashMap::new());
    for (tid, at, name, words) in text.lines().filter_map(line) {
        let its = found.entry(tid).or_default();
        if name == "ioctl" {
            let is_one = words.contains(WRITE_READ);
            now.insert(tid, is_one);
            if is_one {
                its.push(Traced { begin: at, ..Traced::default() });
            }
        } else if now.get(&tid) == Some(&true) {
            if let Some(last) = its.last_mut() {
                last.take(name, words, at);
            }
        }
    }
    found
}

#[cfg(test)]
mod tests {
    use super::*;

    #[test]
    fn a_call_is_told_by_its_lines() {
        let text = " a-b [1]-12  [002] ...1.    22.000005: binder_ioctl: cmd=0xc0306201 arg=0x7f\n\
             a-b [1]-12  [002] .....    22.000006: binder_command: cmd=0x40406300 BC_TRANSACTION\n\
             a-b [1]-12  [002] .....    22.000007: binder_transaction: transaction=9 dest_node=3 reply=0\n\
             a-b [1]-12  [002] .....    22.000009: binder_transaction_node_to_ref: transaction=9 node=4 ==> dest_ref=5\n\
            # nothing\n cut off";
        let trace = read(text);
        let call = &trace[&12][0];
        assert_eq!((call.begin, &call.commands[..]), (22_000_005_000, &[22_000_006_000][..]));
        assert_eq!((call.sent[&0], call.numbered[&0]), (9, (22_000_009_000, 22_000_009_000)));
        assert!(call.answered.is_empty());
    }

    #[test]
    fn of_a_reply_it_is_told_whose_call_it_answers() {
        let text = " a-12  [002] .....    22.000005: binder_ioctl: cmd=0xc0306201 arg=0x7f\n\
             a-12  [002] .....    22.000006: binder_command: cmd=0x40406301 BC_REPLY\n\
             a-12  [002] .....    22.000007: binder_transaction: transaction=9 dest_node=0 dest_proc=3 dest_thread=14 reply=1 code=0x0\n";
        assert_eq!(read(text)[&12][0].answered[&0], 14);
    }
}
