// SPDX-License-Identifier: Apache-2.0 OR MIT
//! Bytes of memory that an entry of the history takes, by what malloc says is in use.
use crate::beside::{self, ByRequests};
use crate::engines::{self, Engine, Library};
use crate::table::{Key, Table, Whose};
use crate::workloads::{self, Workload};

/// glibc's account of its blocks.
#[repr(C)]
struct Mallinfo {
    arena: usize,
    ordblks: usize,
    smblks: usize,
    hblks: usize,
    /// Bytes in blocks that were mapped on their own.
    hblkhd: usize,
    usmblks: usize,
    fsmblks: usize,
    /// Bytes in other blocks that are in use.
    uordblks: usize,
    fordblks: usize,
    keepcost: usize,
}

unsafe extern "C" {
    safe fn mallinfo2() -> Mallinfo;
}

fn used() -> usize {
    let info = mallinfo2();
    info.uordblks + info.hblkhd
}

/// What is in use is looked at so often on the way, since vectors grow by doubling.
const LOOKS: usize = 16;

/// The bytes an entry at each look, malloc's own among them.
pub fn of<E: Engine>(workload: &Workload, entries: usize) -> Vec<f64> {
    let (setup, body) = (engines::formed::<E>(&workload.setup.0), engines::formed::<E>(&workload.body.0));
    let mut slots = engines::slots([&workload.setup.0[..], &workload.body.0]);
    let mut figures = Vec::with_capacity(LOOKS);
    let mut engine = E::new(workload.seats);
    engines::play(&mut engine, &setup, &mut slots);
    let (from, before) = (engine.steps() as usize, used());
    for look in 1..=LOOKS {
        while (engine.steps() as usize) < from + entries * (LOOKS + look) / (2 * LOOKS) {
            engines::play(&mut engine, &body, &mut slots);
        }
        figures.push((used() - before) as f64 / (engine.steps() as usize - from) as f64);
    }
    figures
}

/// Measures the workloads of a fixed size.
pub fn measure(entries: usize, table: &mut Table) {
    for workload in workloads::all() {
        let mut add = |whose, figures: Vec<f64>| {
            figures.into_iter().for_each(|figure| table.add(Key::plain(workload.name), whose, figure));
        };
        add(Whose::Ours, of::<Library>(&workload, entries));
        if beside::IS_THERE {
            add(Whose::Beside, of::<ByRequests>(&workload, entries));
        }
    }
}
