// SPDX-License-Identifier: Apache-2.0 OR MIT
//! Services that a recording of `hullpippin record` has seen being registered: addService hands the manager a name and the owner's ptr.
use crate::judging::files::{Asked, Files, WriteRead};
use crate::parcel;
use crate::record::{u32_at, u64_at, Flat, Record, RECORD_SIZE};
use anyhow::Result;
use std::collections::HashMap;

const BC_TRANSACTION: u32 = 0x4040_6300;
const BC_REPLY: u32 = 0x4040_6301;
const BC_TRANSACTION_SG: u32 = 0x4048_6311;
const BC_REPLY_SG: u32 = 0x4048_6312;
/// Which bits of a command say how long it is.
const SIZE_SHIFT: u32 = 16;
const SIZE_BITS: u32 = 0x3fff;

/// Who registered what.
#[derive(Clone, Debug, Default)]
pub struct Registered {
    /// Names of objects, by their owners and what these call them.
    pub objects: HashMap<(u32, u64), String>,
    /// The process of each thread.
    pub processes: HashMap<u32, u32>,
}

/// How much of a recording a part takes.
fn padded(size: u64) -> usize {
    usize::try_from(size).unwrap_or(usize::MAX).saturating_add(7) & !7
}

/// The name and the ptr of the object that a call registers, if it does.
fn registered(record: &Record, data: &[u8], offsets: &[u8]) -> Option<(String, u64)> {
    let one = |bytes: &[u8]| (bytes.len() == 8).then(|| u64_at(bytes, 0));
    let at = one(offsets).filter(|_| record.handle() == 0 && !record.is_one_way())?;
    let token = parcel::token(data)?;
    let name = parcel::text_at(data, token.end)?;
    let object = Flat::read(data, at).filter(|it| it.kind.is_binder() && it.binder > 0)?;
    Some((name.text, object.binder))
}

impl Registered {
    /// Adds what all threads of a recording have registered.
    pub fn add(&mut self, path: &str) -> Result<()> {
        self.add_files(&Files::read(path)?);
        Ok(())
    }

    pub fn add_files(&mut self, files: &Files) {
        for thread in &files.threads {
            self.processes.insert(thread.tid, thread.pid);
            for call in &thread.calls {
                if let Asked::WriteRead(asked) = &call.what {
                    self.add_written(thread.pid, asked);
                }
            }
        }
    }

    /// What one write has registered: its commands, whose parcels stand one behind the other.
    fn add_written(&mut self, pid: u32, asked: &WriteRead) {
        let (mut at, mut parcel_at) = (0usize, 0usize);
        while let Some(command) = asked.written.get(at..).filter(|it| it.len() >= 4) {
            let code = u32_at(command, 0);
            at += 4 + (code >> SIZE_SHIFT & SIZE_BITS) as usize;
            if !matches!(code, BC_TRANSACTION | BC_REPLY | BC_TRANSACTION_SG | BC_REPLY_SG) {
                continue;
            }
            let record = match command.get(4..4 + RECORD_SIZE) {
                Some(record) => Record::read(record),
                None => return,
            };
            let mut part = |size: u64| {
                let from = parcel_at;
                parcel_at = parcel_at.saturating_add(padded(size));
                asked.sent.get(from..from.checked_add(usize::try_from(size).ok()?)?)
            };
            let (data, offsets) = (part(record.data_size), part(record.offsets_size));
            if let (Some(data), Some(offsets), BC_TRANSACTION | BC_TRANSACTION_SG) = (data, offsets, code) {
                let found = registered(&record, data, offsets);
                self.objects.extend(found.map(|(name, ptr)| ((pid, ptr), name)));
            }
        }
    }
}
