// SPDX-License-Identifier: Apache-2.0 OR MIT
//! No engine beside ours: what `beside` has, and nothing that is called.
use crate::engines::{Engine, Told};
use crate::sharing::Hand;
use crate::steps::Ask;
use std::ffi::c_void;

/// Whether there is an engine beside ours.
pub const IS_THERE: bool = false;

const NOBODY: &str = "there is no engine beside";

/// Stands for an engine beside that is asked by requests; none of it is ever made.
pub struct ByRequests;

/// Stands for an engine beside that is asked by steps.
pub type BySteps = ByRequests;

/// Stands for an engine beside that keeps its answers.
pub type Kept = ByRequests;

/// The name under which a tool would find the requests of an engine beside.
pub const ASKS: &str = NOBODY;

pub fn asks() -> *const c_void {
    std::ptr::null()
}

/// Stands for a seat of an engine beside, behind a mutex.
pub struct ByMutex;

/// Stands for one that waits for its turn.
pub type ByTicket = ByMutex;

impl Engine for ByRequests {
    type Form = Ask;

    fn new(_: u32) -> ByRequests {
        unreachable!("{NOBODY}")
    }

    fn form(ask: &Ask) -> Ask {
        ask.clone()
    }

    fn ask(&mut self, _: u32, _: &Ask, _: u64) -> Told {
        unreachable!("{NOBODY}")
    }

    fn is_ready(&mut self, _: u32) -> bool {
        unreachable!("{NOBODY}")
    }

    fn steps(&mut self) -> u32 {
        unreachable!("{NOBODY}")
    }

    fn journal(self) -> Vec<u8> {
        unreachable!("{NOBODY}")
    }
}

impl ByMutex {
    pub fn seats(_: ByRequests) -> Vec<ByMutex> {
        Vec::new()
    }
}

impl Hand for ByMutex {
    fn ask(&mut self, _: &Ask, _: u64) -> Told {
        unreachable!("{NOBODY}")
    }

    fn is_ready(&mut self) -> bool {
        unreachable!("{NOBODY}")
    }
}

/// What the engine beside says of a journal: there is none that could disagree.
pub fn is_lawful(_: &[u8]) -> bool {
    true
}

pub fn read(_: &[u8]) -> usize {
    0
}
