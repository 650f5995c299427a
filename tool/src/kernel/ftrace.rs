// SPDX-License-Identifier: Apache-2.0 OR MIT
//! A line of ftrace's text, as `trace` and `trace_pipe` have it, and trace-cmd and perf print it:
//! `COMM-TID (TGID) [CPU] FLAGS SECONDS: EVENT: NAME=VALUE ..`, in which the tgid and the flags may be missing.
use super::lines::{digits_of, number, number_u32, words};
use std::convert::TryFrom;

/// How many columns a thread's name has before the dash.
const COMM: usize = 16;

/// What a line says, as far as all events have it.
#[derive(Clone, Copy, Debug, PartialEq, Eq)]
pub struct Line<'a> {
    pub comm: &'a [u8],
    pub tid: u32,
    /// Its process, where the trace tells it.
    pub process: Option<u32>,
    /// Nanoseconds of the trace's clock; None where that doesn't count seconds.
    pub time: Option<u64>,
    pub event: &'a [u8],
    pub rest: &'a [u8],
}

/// What an event of Binder's tells.
#[derive(Clone, Copy, Debug, PartialEq, Eq)]
pub enum What {
    Command(u32),
    Return(u32),
    Transaction(Transaction),
    /// A call or a reply was handed to a thread.
    Received(u64),
    /// It has a buffer, with so many bytes of data and offsets.
    Buffer(u64, u64),
    /// Its buffer was given back.
    Released(u64),
    /// It hands an object over.
    Passed(Passing),
    Ioctl(u32),
    /// Nothing that is looked at.
    Other,
}

/// An object that a call or a reply hands over.
#[derive(Clone, Copy, Debug, Default, PartialEq, Eq)]
pub struct Passing {
    pub transaction: u64,
    pub node: u64,
    /// The receiver's handle; None where it is the receiver's own.
    pub handle: Option<u32>,
    /// What its owner calls it, where that is the sender.
    pub ptr: Option<u64>,
}

/// A call or a reply, before it has a buffer.
#[derive(Clone, Copy, Debug, Default, PartialEq, Eq)]
pub struct Transaction {
    pub number: u64,
    /// 0 of a reply.
    pub node: u64,
    pub process: u32,
    /// 0 where any thread may have it.
    pub thread: u32,
    pub is_reply: bool,
    pub flags: u32,
    pub code: u32,
}

/// A time such as `14.595090`; Some(None) where it is a count of something else.
fn time(word: &[u8]) -> Option<Option<u64>> {
    const DIGITS: usize = 9;
    let dot = match word.iter().position(|it| *it == b'.') {
        Some(dot) => dot,
        None => return digits_of(word, 10).map(|_| None),
    };
    let (seconds, part) = (digits_of(&word[..dot], 10)?, &word[dot + 1..]);
    if part.len() > DIGITS {
        return None;
    }
    let part = digits_of(part, 10)? * 10u64.pow((DIGITS - part.len()) as u32);
    Some(Some(seconds.checked_mul(1_000_000_000)?.checked_add(part)?))
}

fn trimmed(mut bytes: &[u8]) -> &[u8] {
    while let [b' ', rest @ ..] = bytes {
        bytes = rest;
    }
    bytes
}

/// The next word, and what stands behind it.
fn word(bytes: &[u8]) -> (&[u8], &[u8]) {
    let bytes = trimmed(bytes);
    let end = bytes.iter().position(|it| *it == b' ').unwrap_or(bytes.len());
    bytes.split_at(end)
}

/// The process's pid in brackets; `-----` where the kernel has lost it.
fn process(bytes: &[u8]) -> Option<(Option<u32>, &[u8])> {
    let rest = match trimmed(bytes).strip_prefix(b"(") {
        Some(rest) => rest,
        None => return Some((None, bytes)),
    };
    let end = rest.iter().position(|it| *it == b')')?;
    let (pid, behind) = (trimmed(&rest[..end]), &rest[end + 1..]);
    let pid = if pid.iter().all(|it| *it == b'-') { None } else { Some(number_u32(pid)?) };
    Some((pid, behind))
}

/// All behind the thread's name and the dash.
fn behind_name<'a>(comm: &'a [u8], bytes: &'a [u8]) -> Option<Line<'a>> {
    let digits = bytes.iter().position(|it| !it.is_ascii_digit())?;
    let tid = number_u32(&bytes[..digits])?;
    let (process, rest) = process(&bytes[digits..])?;
    behind_thread(comm, tid, process, rest)
}

/// As perf prints it: COMM PID/TID.
fn of_perf<'a>(comm: &'a [u8], bytes: &'a [u8]) -> Option<Line<'a>> {
    let (numbers, rest) = word(bytes);
    let slash = numbers.iter().position(|it| *it == b'/')?;
    let (process, tid) = (number_u32(&numbers[..slash])?, number_u32(&numbers[slash + 1..])?);
    behind_thread(comm, tid, Some(process), rest)
}

/// All behind the numbers of thread and process.
fn behind_thread<'a>(comm: &'a [u8], tid: u32, process: Option<u32>, rest: &'a [u8]) -> Option<Line<'a>> {
    let (processor, rest) = word(rest);
    let inner = processor.strip_prefix(b"[")?.strip_suffix(b"]")?;
    digits_of(inner, 10)?;
    let (first, behind) = word(rest);
    let is_time = |it: &[u8]| it.strip_suffix(b":").and_then(time);
    let (time, rest) = match is_time(first) {
        Some(time) => (time, behind),
        // Flags stand before it.
        None => {
            let (second, behind) = word(behind);
            (is_time(second)?, behind)
        }
    };
    let (event, rest) = word(rest);
    let event = event.strip_suffix(b":")?;
    // perf names an event with its system before it.
    let event = event.strip_prefix(b"binder:").unwrap_or(event);
    Some(Line { comm: trimmed(comm), tid, process, time, event, rest: trimmed(rest) })
}

/// A line of an event; None where it is none.
pub fn line(bytes: &[u8]) -> Option<Line<'_>> {
    // Names stand in so many columns, so whatever a thread calls itself, the dash behind them is found.
    if bytes.get(COMM) == Some(&b'-') {
        if let Some(line) = behind_name(&bytes[..COMM], &bytes[COMM + 1..]) {
            return Some(line);
        }
    }
    if bytes.get(COMM) == Some(&b' ') {
        if let Some(line) = of_perf(&bytes[..COMM], &bytes[COMM..]) {
            return Some(line);
        }
    }
    let dashes = bytes.iter().enumerate().take(COMM + 16).filter(|it| *it.1 == b'-');
    let mut found = dashes.filter_map(|(at, _)| behind_name(&bytes[..at], &bytes[at + 1..]));
    found.next()
}

/// The value of a field, which stands as NAME=VALUE.
fn field<'a>(rest: &'a [u8], name: &'static str) -> Result<&'a [u8], String> {
    let value = |it: &'a [u8]| it.strip_prefix(name.as_bytes())?.strip_prefix(b"=");
    words(rest).find_map(value).ok_or_else(|| format!("has no {name}"))
}

fn numbered(rest: &[u8], name: &'static str) -> Result<u64, String> {
    number(field(rest, name)?).ok_or_else(|| format!("has a {name} that is no number"))
}

fn numbered_u32(rest: &[u8], name: &'static str) -> Result<u32, String> {
    u32::try_from(numbered(rest, name)?).map_err(|_| format!("has a {name} of more than 32 bits"))
}

fn transaction(rest: &[u8]) -> Result<What, String> {
    Ok(What::Transaction(Transaction {
        number: numbered(rest, "transaction")?,
        node: numbered(rest, "dest_node")?,
        process: numbered_u32(rest, "dest_proc")?,
        thread: numbered_u32(rest, "dest_thread")?,
        is_reply: numbered(rest, "reply")? != 0,
        flags: numbered_u32(rest, "flags")?,
        code: numbered_u32(rest, "code")?,
    }))
}

fn passing(rest: &[u8], has_handle: bool) -> Result<Passing, String> {
    let handle = if has_handle { Some(numbered_u32(rest, "dest_desc")?) } else { None };
    Ok(Passing { transaction: numbered(rest, "transaction")?, node: numbered(rest, "node")?, handle, ptr: None })
}

/// What an event tells; what is wrong with it where it hasn't what each kernel gives it.
pub fn what(event: &[u8], rest: &[u8]) -> Result<What, String> {
    Ok(match event {
        b"binder_transaction" => transaction(rest)?,
        b"binder_transaction_received" => What::Received(numbered(rest, "transaction")?),
        b"binder_transaction_alloc_buf" => {
            let (data, offsets) = (numbered(rest, "data_size")?, numbered(rest, "offsets_size")?);
            What::Buffer(numbered(rest, "transaction")?, data.saturating_add(offsets))
        }
        b"binder_transaction_buffer_release" => What::Released(numbered(rest, "transaction")?),
        b"binder_transaction_node_to_ref" => {
            What::Passed(Passing { ptr: numbered(rest, "src_ptr").ok(), ..passing(rest, true)? })
        }
        b"binder_transaction_ref_to_ref" => What::Passed(passing(rest, true)?),
        b"binder_transaction_ref_to_node" => What::Passed(passing(rest, false)?),
        b"binder_command" => What::Command(numbered_u32(rest, "cmd")?),
        b"binder_return" => What::Return(numbered_u32(rest, "cmd")?),
        b"binder_ioctl" => What::Ioctl(numbered_u32(rest, "cmd")?),
        _ => What::Other,
    })
}

#[cfg(test)]
mod tests {
    use super::*;

    const REST: &str = "transaction=6 dest_node=1 dest_proc=112 dest_thread=0 reply=0 flags=0x10 code=0x5f504e47";

    fn read(text: &str) -> (String, u32, Option<u32>, Option<u64>, String) {
        let it = line(text.as_bytes()).unwrap_or_else(|| panic!("{text}"));
        let text = |it: &[u8]| String::from_utf8_lossy(it).into_owned();
        (text(it.comm), it.tid, it.process, it.time, text(it.event))
    }

    /// The forms are those of samples: 6.1's, with and without the process; an older one of four flags; Android's; perf's.
    #[test]
    fn lines_are_read_in_each_form() {
        let event = "binder_transaction".to_string();
        let time = Some(5_911_656_000);
        let told = |comm: &str, process| (comm.to_string(), 116, process, time, event.clone());
        let line = |head: &str| read(&format!("{head} 5.911656: binder_transaction: {REST}"));
        assert_eq!(line(" ld-linux-x86-64-116     [001] .....    "), told("ld-linux-x86-64", None));
        assert_eq!(line("           storm-116     (    151) [001] .N...    "), told("storm", Some(151)));
        assert_eq!(line("           <...>-116   (-----) [001] ...1 "), told("<...>", None));
        assert_eq!(line("     binder-list-116   [001]  "), told("binder-list", None));
        assert_eq!(read(&format!("     a-116 [001]     5.911656: binder:binder_transaction: {REST}")), told("a", None));
        let of_perf =
            "   ld-linux-x86-64   112/116   [001]     5.911656:      binder:binder_transaction: transaction=6";
        assert_eq!(read(&of_perf[2..]), told("ld-linux-x86-64", Some(112)));
        assert_eq!(read(&format!("a-116 [001] 5.911656000: binder_transaction: {REST}")), told("a", None));
    }

    /// A thread may call itself as it likes, in fifteen letters.
    #[test]
    fn no_name_of_a_thread_hides_its_line() {
        for comm in ["a-1 [0] 1.0: b:", "x - y-7 (8)", "-1 [000] 2.0: q"] {
            let text = format!("{comm:>16}-116     [001] .....     5.911656: binder_transaction: {REST}");
            assert_eq!(read(&text).0, comm.trim_start());
            assert_eq!(read(&text).1, 116);
        }
    }

    #[test]
    fn what_is_no_line_is_none() {
        for text in [
            "",
            "# tracer: nop",
            "CPU:1 [LOST 17 EVENTS]",
            "a-1",
            "a-1 [0",
            "a-1 [0] x",
            "a-1 [0] .. 1.5 e: f=1",
            "a-99999999999 [0] .. 1.5: e: f",
        ] {
            assert_eq!(line(text.as_bytes()), None, "{text}");
        }
    }

    #[test]
    fn fields_are_read_by_their_names() {
        let wanted =
            Transaction { number: 6, node: 1, process: 112, flags: 0x10, code: 0x5f50_4e47, ..Transaction::default() };
        assert_eq!(what(b"binder_transaction", REST.as_bytes()), Ok(What::Transaction(wanted)));
        let passed = b"transaction=19 node=20 src_ptr=0x0000000000001020 ==> dest_ref=21 dest_desc=1";
        let passing = Passing { transaction: 19, node: 20, handle: Some(1), ptr: Some(0x1020) };
        assert_eq!(what(b"binder_transaction_node_to_ref", passed), Ok(What::Passed(passing)));
        assert_eq!(what(b"binder_return", b"cmd=0x80407202 BR_TRANSACTION"), Ok(What::Return(0x8040_7202)));
        // trace-cmd says so of a format that it can't read, and the number is there all the same.
        assert_eq!(what(b"binder_return", b"[FAILED TO PARSE] cmd=2151707138"), Ok(What::Return(0x8040_7202)));
        assert_eq!(what(b"sched_switch", b"prev_comm=x"), Ok(What::Other));
        let wrong = [
            ("binder_transaction", "transaction=6", "has no dest_node"),
            ("binder_return", "cmd=x", "has a cmd that is no number"),
            ("binder_command", "cmd=0x1ffffffff", "has a cmd of more than 32 bits"),
        ];
        for (event, rest, told) in wrong {
            assert_eq!(what(event.as_bytes(), rest.as_bytes()), Err(told.into()));
        }
    }

    #[test]
    fn a_clock_that_counts_no_seconds_gives_no_time() {
        assert_eq!(
            [time(b"5.9"), time(b"5.911656789"), time(b"771"), time(b"5.1234567891"), time(b".5"), time(b"5.")],
            [Some(Some(5_900_000_000)), Some(Some(5_911_656_789)), Some(None), None, None, None]
        );
    }
}
