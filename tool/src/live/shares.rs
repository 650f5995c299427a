// SPDX-License-Identifier: Apache-2.0 OR MIT
//! What each account, user and process has taken of what a daemon shares out, and how often it was refused more (clients/daemon/shares.c).
use serde::Serialize;
use std::collections::BTreeMap;
use std::io::{self, Write};

/// What a share is of, by its number in the header's order: its name there, and what a number of it is.
const KINDS: [(&str, &str); 8] = [
    ("descriptors", "descriptors"),
    ("threads", "threads"),
    ("windows", "bytes of windows"),
    ("calls", "pieces of calls"),
    ("owed", "owed to threads"),
    ("objects", "objects"),
    ("handles", "handles"),
    ("deaths", "death notifications"),
];

/// Whose it is: an account's, a user's of it, or a process's of that. In this order an account stands before its users.
#[derive(Clone, Copy, Debug, Eq, Ord, PartialEq, PartialOrd, Serialize)]
pub struct Owner {
    pub account: u64,
    #[serde(skip_serializing_if = "Option::is_none")]
    pub user: Option<u32>,
    #[serde(skip_serializing_if = "Option::is_none")]
    pub pid: Option<u32>,
}

/// How much one has of a kind.
#[derive(Serialize)]
struct Share {
    of: &'static str,
    #[serde(skip)]
    what: &'static str,
    taken: u64,
    refused: u64,
}

/// Those of all, on all devices of the daemon.
#[derive(Default)]
pub struct Shares(BTreeMap<Owner, Vec<Share>>);

/// An owner's line of JSON.
#[derive(Serialize)]
struct Line<'a> {
    #[serde(flatten)]
    owner: Owner,
    comm: Option<&'a str>,
    shares: &'a [Share],
}

impl Shares {
    /// A kind that a later daemon may have isn't told.
    pub fn take(&mut self, owner: Owner, kind: u32, taken: u64, refused: u64) {
        if let Some((of, what)) = KINDS.get(kind as usize) {
            self.0.entry(owner).or_default().push(Share { of, what, taken, refused });
        }
    }

    /// A line for each owner; processes of the device have names.
    pub fn put_text(&self, to: &mut Vec<u8>, comm: impl Fn(u32) -> Option<String>) -> io::Result<()> {
        self.0.iter().try_for_each(|(owner, shares)| {
            let shares: Vec<String> = shares.iter().map(share_words).collect();
            writeln!(to, "{}: {}", owner_words(owner, &comm), shares.join(", "))
        })
    }

    /// The same in JSON.
    pub fn put_json(&self, to: &mut Vec<u8>, comm: impl Fn(u32) -> Option<String>) -> serde_json::Result<()> {
        self.0.iter().try_for_each(|(owner, shares)| {
            let comm = owner.pid.and_then(&comm);
            serde_json::to_writer(&mut *to, &Line { owner: *owner, comm: comm.as_deref(), shares })?;
            to.push(b'\n');
            Ok(())
        })
    }
}

fn share_words(it: &Share) -> String {
    let refused = if it.refused > 0 { format!(" (refused {} times)", it.refused) } else { String::new() };
    format!("{} {}{refused}", it.taken, it.what)
}

fn owner_words(it: &Owner, comm: impl Fn(u32) -> Option<String>) -> String {
    let Owner { account, user, pid } = *it;
    let user_words = user.map_or(String::new(), |it| format!(" user {it}"));
    let pid_words = pid.map_or(String::new(), |it| format!(" pid {it}"));
    let name = pid.and_then(comm).map_or(String::new(), |it| format!(" {it:?}"));
    format!("account {account}{user_words}{pid_words}{name}")
}

#[cfg(test)]
mod tests {
    use super::*;

    #[test]
    fn kinds_are_those_of_the_header() {
        let header = include_str!("../../../clients/protocol.h");
        let names = header.split("#define STATE_SHARES ").nth(1).and_then(|it| it.lines().next()).expect("kinds");
        assert_eq!(names, KINDS.map(|it| format!("{:?}", it.0)).join(", "));
    }
}
