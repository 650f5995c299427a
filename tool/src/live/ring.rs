// SPDX-License-Identifier: Apache-2.0 OR MIT
//! The ring of a device's latest steps. It isn't mapped, but read like a file: a slot that is written meanwhile is noticed by the
//! count of steps, which is read again behind it.
use super::slot::{Slot, SLOT_SIZE};
use crate::record::{u32_at, u64_at};
use anyhow::{ensure, Context, Result};
use std::convert::TryFrom;
use std::fs::File;
use std::os::unix::fs::FileExt;

const MAGIC: &[u8; 8] = b"HPRING02";
/// What is read of the heading.
const HEAD: usize = 1600;
const COUNT_AT: u64 = 128;
const IS_OVER_AT: u64 = 36;
/// Two of the daemon's counters, of the last that stand there.
const PROCESSES_AT: u64 = 192 + 1384;
const THREADS_AT: u64 = 192 + 1392;
/// No ring has larger slots, so no more memory is asked for than for some of these.
const MOST_SLOT: u64 = 65536;
/// How many slots are read together.
const TOGETHER: u64 = 64;

pub struct Ring {
    memory: File,
    heading_size: u64,
    slot_size: u64,
    slot_count: u64,
    /// How far the real time's clock was ahead of the monotonic one.
    pub ahead: u64,
    /// The next step that is wanted.
    next: u64,
    /// How many were written over before they were read.
    pub lost: u64,
}

impl Ring {
    pub fn new(memory: File) -> Result<Ring> {
        let mut head = [0; HEAD];
        memory.read_exact_at(&mut head, 0).context("the ring has no heading")?;
        ensure!(head[..8] == MAGIC[..], "the daemon's ring is of another version: \"{}\"", head[..8].escape_ascii());
        let sizes = [8, 12, 16].map(|at| u64::from(u32_at(&head, at)));
        let [heading_size, slot_size, slot_count] = sizes;
        let is_slot = (SLOT_SIZE as u64..=MOST_SLOT).contains(&slot_size);
        let is_sound = heading_size >= HEAD as u64 && is_slot && slot_count > 0;
        ensure!(is_sound, "the daemon's ring has {slot_count} slots of {slot_size} bytes behind {heading_size}");
        Ok(Ring { memory, heading_size, slot_size, slot_count, ahead: u64_at(&head, 24), next: 0, lost: 0 })
    }

    fn number(&self, at: u64) -> Result<u64> {
        let mut bytes = [0; 8];
        self.memory.read_exact_at(&mut bytes, at).context("the daemon's ring")?;
        Ok(u64::from_le_bytes(bytes))
    }

    /// How many steps there were so far.
    pub fn count(&self) -> Result<u64> {
        self.number(COUNT_AT)
    }

    /// Whether there will be no more.
    pub fn is_over(&self) -> Result<bool> {
        Ok(self.number(IS_OVER_AT)? as u32 != 0)
    }

    /// How many processes and threads there are now.
    pub fn population(&self) -> Result<(u64, u64)> {
        Ok((self.number(PROCESSES_AT)?, self.number(THREADS_AT)?))
    }

    /// Calls this for each step that has come since, and is still there.
    pub fn each(&mut self, mut call: impl FnMut(&Slot)) -> Result<()> {
        let count = self.count()?;
        while self.next < count {
            let oldest = count.saturating_sub(self.slot_count);
            self.lost += oldest.saturating_sub(self.next);
            self.next = self.next.max(oldest);
            let until_wrap = self.slot_count - self.next % self.slot_count;
            let together = TOGETHER.min(until_wrap).min(count - self.next);
            self.read(together, &mut call)?;
            self.next += together;
        }
        Ok(())
    }

    /// Reads slots that stand side by side.
    fn read(&mut self, together: u64, call: &mut impl FnMut(&Slot)) -> Result<()> {
        let at = self.heading_size + self.next % self.slot_count * self.slot_size;
        let mut bytes = vec![0; usize::try_from(together * self.slot_size)?];
        self.memory.read_exact_at(&mut bytes, at).context("the daemon's ring")?;
        // The step with the number of the count is perhaps being written, where the oldest stands.
        let count = self.count()?;
        for (index, slot) in bytes.chunks_exact(self.slot_size as usize).enumerate() {
            let place = self.next + index as u64;
            let is_whole = place.saturating_add(self.slot_count) > count
                && u64_at(slot, 0) == place.wrapping_mul(2).wrapping_add(2);
            match <&[u8; SLOT_SIZE]>::try_from(&slot[..SLOT_SIZE]) {
                Ok(slot) if is_whole => call(&Slot::read(slot)),
                _ => self.lost += 1,
            }
        }
        Ok(())
    }
}
