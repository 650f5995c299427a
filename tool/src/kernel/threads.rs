// SPDX-License-Identifier: Apache-2.0 OR MIT
//! Who the threads of a trace are. A line names its thread; of which process it is tell a column, which few traces have, or calls that
//! are handed to it and replies that go to it.
use crate::calls::OF_THREAD;
use crate::who::Comms;
use anyhow::{ensure, Result};
use std::collections::HashMap;
use std::rc::Rc;

/// More threads are followed by no command: so many use some 40 MB.
const MOST: usize = 1 << 17;
/// What a kernel calls a thread whose name it has lost.
const UNKNOWN: &[u8] = b"<...>";

#[derive(Debug)]
pub struct Thread {
    pub process: Option<u32>,
    pub comm: Rc<str>,
    /// The numbers of calls that it waits for, and of those that it serves, the innermost last.
    pub waits: Vec<u64>,
    pub serves: Vec<u64>,
    /// What it has sent and isn't told of yet, since its size and its objects come behind.
    pub sending: Option<Sending>,
    /// Whether it has sent something that no return has accepted or refused.
    pub unanswered: bool,
    /// The call that it has sent last, as long as no return has said what came of it.
    pub latest: Option<u64>,
}

/// What a thread is sending.
#[derive(Clone, Copy, Debug, PartialEq, Eq)]
pub enum Sending {
    Call(u64),
    /// The reply's own number, and that of the call.
    Reply(u64, u64),
}

impl Sending {
    /// Its own number.
    pub fn number(self) -> u64 {
        match self {
            Sending::Call(number) | Sending::Reply(number, _) => number,
        }
    }
}

#[derive(Debug, Default)]
pub struct Threads {
    by_tid: HashMap<u32, Thread>,
    pub comms: Comms,
}

impl Threads {
    /// The thread of a line, which is met perhaps for the first time.
    pub fn meet(&mut self, tid: u32, comm: &[u8], process: Option<u32>) -> Result<&mut Thread> {
        ensure!(self.by_tid.len() < MOST || self.by_tid.contains_key(&tid), "there are more than {MOST} threads in it");
        let thread = self.by_tid.entry(tid).or_insert_with(|| Thread {
            process: None,
            comm: "".into(),
            waits: Vec::new(),
            serves: Vec::new(),
            sending: None,
            unanswered: false,
            latest: None,
        });
        let is_news = thread.comm.as_bytes() != comm && (comm != UNKNOWN || thread.comm.is_empty());
        if is_news {
            thread.comm = String::from_utf8_lossy(comm).into();
        }
        let is_first = thread.process.is_none();
        thread.process = process.or(thread.process);
        // Who is told of only by others has no name yet.
        if (is_news || is_first) && !thread.comm.is_empty() {
            let pid = thread.process.unwrap_or(OF_THREAD | tid);
            self.comms.name(pid, pid == tid, &thread.comm);
        }
        Ok(thread)
    }

    pub fn get(&mut self, tid: u32) -> Option<&mut Thread> {
        self.by_tid.get_mut(&tid)
    }

    /// A thread is of this process.
    pub fn learn(&mut self, tid: u32, process: u32) {
        if process == 0 || tid == 0 {
            return;
        }
        // A thread that is only told of is met when it first has a line.
        if let Some(thread) = self.by_tid.get_mut(&tid) {
            if thread.process != Some(process) {
                thread.process = Some(process);
                self.comms.name(process, process == tid, &thread.comm);
            }
        }
    }

    /// The process of a thread: its pid, or what stands for it where that isn't known.
    pub fn process(&self, tid: u32) -> u32 {
        self.by_tid.get(&tid).and_then(|it| it.process).unwrap_or(OF_THREAD | tid)
    }

    pub fn comm(&self, tid: u32) -> Rc<str> {
        self.by_tid.get(&tid).map_or_else(|| "".into(), |it| it.comm.clone())
    }

    /// All that are sending something still.
    pub fn sending(&self) -> Vec<u32> {
        let mut tids: Vec<u32> = self.by_tid.iter().filter(|it| it.1.sending.is_some()).map(|it| *it.0).collect();
        tids.sort_unstable();
        tids
    }
}
