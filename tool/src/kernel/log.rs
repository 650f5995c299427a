// SPDX-License-Identifier: Apache-2.0 OR MIT
//! The driver's files `transaction_log` and `failed_transaction_log`: its latest 32 calls and replies, and those that it refused.
use super::lines::{digits_of, number, number_u32, shown, words, Lines};
use anyhow::{bail, Result};

/// The driver keeps 32; a bug report may have some such files.
const MOST: usize = 1 << 16;

/// A call or a reply. What it was refused with is a return's low numbers, an errno, and a line of binder.c.
#[derive(Clone, Debug, Default, PartialEq, Eq)]
pub struct Entry {
    pub number: u64,
    /// `call`, `reply` or `async`.
    pub kind: String,
    pub from: (u32, u32),
    pub to: (u32, u32),
    pub context: String,
    pub node: u64,
    pub handle: u32,
    pub data: u64,
    pub offsets: u64,
    pub returned: u32,
    pub errno: i64,
    pub line: u32,
    /// The driver was writing it just then.
    pub is_incomplete: bool,
}

impl Entry {
    pub fn is_refused(&self) -> bool {
        self.returned != 0
    }
}

fn pair(word: &[u8], between: u8) -> Option<(&[u8], &[u8])> {
    let at = word.iter().position(|it| *it == between)?;
    Some((&word[..at], &word[at + 1..]))
}

fn party(word: &[u8]) -> Option<(u32, u32)> {
    let (process, thread) = pair(word, b':')?;
    Some((number_u32(process)?, number_u32(thread)?))
}

fn entry(line: &[u8]) -> Option<Entry> {
    let words: Vec<&[u8]> = words(line).collect();
    let behind = |name: &str| {
        let at = words.iter().position(|it| *it == name.as_bytes())?;
        words.get(at + 1).copied()
    };
    let kind = words.get(1)?;
    if ![&b"call"[..], b"reply", b"async"].contains(kind) {
        return None;
    }
    let (data, offsets) = pair(behind("size")?, b':')?;
    let (returned, errno) = pair(behind("ret")?, b'/')?;
    let sign = if errno.starts_with(b"-") { -1 } else { 1 };
    let errno = digits_of(errno.strip_prefix(b"-").unwrap_or(errno), 10)?;
    let line = words.iter().find_map(|it| it.strip_prefix(b"l=")).and_then(number_u32)?;
    Some(Entry {
        number: number(words.first()?.strip_suffix(b":")?)?,
        kind: String::from_utf8_lossy(kind).into_owned(),
        from: party(behind("from")?)?,
        to: party(behind("to")?)?,
        context: String::from_utf8_lossy(behind("context")?).into_owned(),
        node: number(behind("node")?)?,
        handle: number_u32(behind("handle")?)?,
        data: number(data)?,
        // Kernels before 4.14 have the offsets' size last, later ones that of more buffers behind another colon.
        offsets: number(pair(offsets, b':').map_or(offsets, |it| it.0))?,
        returned: number_u32(returned)?,
        errno: sign * i64::from(u32::try_from(errno).ok()?),
        line,
        is_incomplete: words.last() == Some(&&b"(incomplete)"[..]),
    })
}

/// Reads a file's lines; what makes no sense is named.
pub fn read(lines: &mut Lines<'_>) -> Result<Vec<Entry>> {
    let mut entries = Vec::new();
    while let Some(line) = lines.next()? {
        if line.is_empty() {
            continue;
        }
        match entry(line) {
            Some(entry) => entries.push(entry),
            None => {
                let line = shown(line);
                bail!("line {} makes no sense in a transaction log: {line}", lines.number());
            }
        }
        if entries.len() > MOST {
            bail!("it has more than {MOST} calls, and a kernel keeps 32");
        }
    }
    lines.check_end()?;
    Ok(entries)
}

#[cfg(test)]
mod tests {
    use super::*;

    fn of(text: &str) -> Result<Vec<Entry>> {
        read(&mut Lines::new(Box::new(text.as_bytes())))
    }

    #[test]
    fn entries_are_read() {
        let text = "469: call  from 110:111 to 0:0 context binder node 3 handle 1 size 104:8 ret 29189/-22 l=3063\n\
                    7: async from 1:1 to 2:0 context hwbinder node 3 handle 1 size 104:8 ret 0/0 l=0 (incomplete)\n";
        let entries = of(text).unwrap();
        let wanted = Entry {
            number: 469,
            kind: "call".into(),
            from: (110, 111),
            context: "binder".into(),
            node: 3,
            handle: 1,
            data: 104,
            offsets: 8,
            returned: 29189,
            errno: -22,
            line: 3063,
            ..Entry::default()
        };
        assert_eq!(entries[0], wanted);
        assert!(entries[0].is_refused() && !entries[1].is_refused() && entries[1].is_incomplete);
    }

    #[test]
    fn what_makes_no_sense_is_named() {
        let told = |text: &str| of(text).unwrap_err().to_string();
        assert_eq!(
            told("4: call from 1 to 2\n"),
            "line 1 makes no sense in a transaction log: \"4: call from 1 to 2\""
        );
        assert_eq!(told("4: call"), "line 1 breaks off; it is left out");
        let line = "4: call  from 1:1 to 0:0 context binder node 3 handle 1 size 1:8 ret 29189/--22 l=3\n";
        assert!(told(line).starts_with("line 1 makes no sense"));
        let many = "4: call  from 1:1 to 0:0 context binder node 3 handle 1 size 1:8 ret 0/0 l=3\n".repeat(MOST + 1);
        assert!(told(&many).starts_with("it has more than 65536 calls"));
    }
}
