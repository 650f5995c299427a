// SPDX-License-Identifier: Apache-2.0 OR MIT
//! One workload played so often by one engine, and nothing else, so that bench/count can count from outside what the
//! engine takes for it.
use crate::beside::{self, Kept};
use crate::engines::{self, Engine, HandedOver, Library};
use crate::memory;
use crate::settings::{Counted, Counts};
use crate::workloads::{self, Workload};
use std::ffi::c_void;

/// Entries that the bytes of a history are looked at over.
const ENTRIES: usize = 32_768;

/// The functions of the header that make the workloads' requests.
mod c {
    use std::ffi::c_void;

    unsafe extern "C" {
        pub fn hullpippin_open(seat: *mut c_void, pid: u32, euid: u32, window: u32, answer: *mut c_void) -> u32;
        pub fn hullpippin_manager(seat: *mut c_void, answer: *mut c_void) -> u32;
        pub fn hullpippin_write(
            seat: *mut c_void,
            stream: *const u8,
            stream_size: usize,
            area: *const u8,
            area_size: usize,
            answer: *mut c_void,
        ) -> u32;
        pub fn hullpippin_read(seat: *mut c_void, limit: u32, answer: *mut c_void) -> u32;
        pub fn hullpippin_post(
            seat: *mut c_void,
            request: *const c_void,
            stream: *const u8,
            stream_size: usize,
            area: *const u8,
            area_size: usize,
        ) -> u32;
        pub fn hullpippin_serve(seat: *mut c_void, picked: *mut u32) -> u32;
        pub fn hullpippin_collect(seat: *mut c_void, answer: *mut c_void) -> u32;
    }
}

/// What is counted, by the names that a tool finds it under: all of a request, and not how the bench looks at its answer.
fn functions(whose: Counts) -> Vec<(&'static str, *const c_void)> {
    match whose {
        Counts::Ours => vec![
            ("hullpippin_open", c::hullpippin_open as *const c_void),
            ("hullpippin_manager", c::hullpippin_manager as *const c_void),
            ("hullpippin_write", c::hullpippin_write as *const c_void),
            ("hullpippin_read", c::hullpippin_read as *const c_void),
        ],
        Counts::Handed => vec![
            ("hullpippin_post", c::hullpippin_post as *const c_void),
            ("hullpippin_serve", c::hullpippin_serve as *const c_void),
            ("hullpippin_collect", c::hullpippin_collect as *const c_void),
        ],
        Counts::Beside => vec![(beside::ASKS, beside::asks())],
    }
}

/// The workloads that are counted.
fn all() -> Vec<Workload> {
    let mut all = Vec::from(workloads::all());
    all.insert(4, workloads::acquire_and_release());
    all.insert(1, workloads::ping_among_all());
    all
}

/// Says what is counted and where it lies, and plays the workload; without rounds, says what there is and what an entry
/// of the history takes.
pub fn play(words: &Counted) -> Result<(), String> {
    let found = all().into_iter().find(|it| it.journal == words.workload);
    match (found, words.whose) {
        (None, _) => {
            all().iter().for_each(|it| println!("{}\t{}\t{}", it.journal, it.name, it.body.0.len()));
            Ok(())
        }
        (Some(_), Counts::Beside) if !beside::IS_THERE => Err("there is no engine beside".into()),
        (Some(workload), Counts::Beside) => played::<Kept>(&workload, words),
        (Some(workload), Counts::Ours) => played::<Library>(&workload, words),
        (Some(workload), Counts::Handed) => played::<HandedOver>(&workload, words),
    }
}

fn played<E: Engine>(workload: &Workload, words: &Counted) -> Result<(), String> {
    if words.rounds == 0 {
        let figures = memory::of::<E>(workload, ENTRIES);
        println!("{}", figures.iter().sum::<f64>() / figures.len() as f64);
        return Ok(());
    }
    functions(words.whose).into_iter().for_each(|(name, at)| println!("{name}\t{at:p}"));
    let mut engine = E::new(workload.seats);
    let mut slots = engines::slots([&workload.setup.0[..], &workload.body.0]);
    engines::play(&mut engine, &engines::formed::<E>(&workload.setup.0), &mut slots);
    let body = engines::formed::<E>(&workload.body.0);
    (0..words.rounds).for_each(|_| engines::play(&mut engine, &body, &mut slots));
    Ok(())
}
