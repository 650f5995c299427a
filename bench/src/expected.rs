// SPDX-License-Identifier: Apache-2.0 OR MIT
//! The journals that the workloads must come to. Two other engines of the same rules made them, an ordinary one in Rust
//! and a model in Python: the short ones are kept as they are, the long ones as hashes.
use crate::engines::{self, Engine};
use crate::growth::{self, Kind};
use crate::steps::{SEATS, Steps};
use crate::workloads;

/// A journal that must come out.
enum Expected {
    Bytes(&'static [u8]),
    /// How many bytes, and their FNV-1a of 64 bits.
    Hash(usize, u64),
}

use Expected::{Bytes, Hash};

const EXPECTED: [(&str, Expected); 11] = [
    ("w1", Bytes(include_bytes!("../journals/w1.journal"))),
    ("w2", Bytes(include_bytes!("../journals/w2.journal"))),
    ("w3a", Bytes(include_bytes!("../journals/w3a.journal"))),
    ("w3b", Bytes(include_bytes!("../journals/w3b.journal"))),
    ("w4a", Bytes(include_bytes!("../journals/w4a.journal"))),
    ("w4b", Bytes(include_bytes!("../journals/w4b.journal"))),
    ("w5_names_10", Hash(1_118_830, 0x28ce_632e_6447_05e9)),
    ("w5_buffers_10", Hash(648_567, 0x11a2_cf96_cc4d_c2c2)),
    ("w5_dues_10", Bytes(include_bytes!("../journals/w5_dues_10.journal"))),
    ("w5_notices_10", Hash(377_738, 0x8972_c21f_56bd_57ec)),
    ("w6_8_one_after_the_other", Bytes(include_bytes!("../journals/w6_8_one_after_the_other.journal"))),
];

fn hash(bytes: &[u8]) -> u64 {
    bytes.iter().fold(0xcbf2_9ce4_8422_2325, |hash, byte| (hash ^ u64::from(*byte)).wrapping_mul(0x0100_0000_01b3))
}

impl Expected {
    fn is(&self, bytes: &[u8]) -> bool {
        match self {
            Bytes(wanted) => bytes == *wanted,
            Hash(size, wanted) => bytes.len() == *size && hash(bytes) == *wanted,
        }
    }
}

/// A journal, by the name of what must come to it.
type Named = (String, Vec<u8>);

// Plays lists one after the other, each so often.
fn journal<E: Engine>(seats: u32, lists: &[(&Steps, usize)]) -> Vec<u8> {
    let mut engine = E::new(seats);
    let mut slots = engines::slots(lists.iter().map(|(list, _)| &list.0[..]));
    for (list, times) in lists {
        let ops = engines::formed::<E>(&list.0);
        (0..*times).for_each(|_| engines::play(&mut engine, &ops, &mut slots));
    }
    engine.journal()
}

fn journals<E: Engine>() -> Vec<Named> {
    let mut made = Vec::new();
    for it in workloads::all() {
        made.push((it.journal.into(), journal::<E>(it.seats, &[(&it.setup, 1), (&it.body, 3)])));
    }
    for Kind { journal: name, make, .. } in growth::KINDS {
        let grown = make(10);
        let bodies = grown.bodies.iter().flat_map(|body| [(&body.before, 1), (&body.steps, 1)]);
        made.push((
            name.into(),
            journal::<E>(2, &std::iter::once((&grown.setup, 1)).chain(bodies).collect::<Vec<_>>()),
        ));
    }
    let (setup, bodies) = workloads::pairs(8);
    let lists = std::iter::once((&setup, 1)).chain(bodies.iter().map(|body| (body, 3))).collect::<Vec<_>>();
    made.push(("w6_8_one_after_the_other".into(), journal::<E>(SEATS as u32, &lists)));
    made
}

/// How many journals are as they must be, or which isn't.
pub fn check<E: Engine>() -> Result<usize, String> {
    let made = journals::<E>();
    for ((name, journal), (wanted, expected)) in made.iter().zip(&EXPECTED) {
        if name != wanted || !expected.is(journal) {
            return Err(format!("{name}: another journal than must come out ({} bytes)", journal.len()));
        }
    }
    Ok(made.len())
}
