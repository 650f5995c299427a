// SPDX-License-Identifier: Apache-2.0 OR MIT
//! Journals that are cut anywhere and have bits turned: each is shown or named, and none ends the program otherwise.
mod common;
use common::*;

/// A sequence that is the same in each run.
struct Numbers(u64);

impl Numbers {
    fn below(&mut self, end: usize) -> usize {
        self.0 ^= self.0 << 13;
        self.0 ^= self.0 >> 7;
        self.0 ^= self.0 << 17;
        (self.0 % end as u64) as usize
    }
}

const WORDS: [&[&str]; 10] = [
    &["show"],
    &["show", "--format", "json"],
    &["state"],
    &["state", "--format", "json"],
    &["leaks"],
    &["stats"],
    &["slow"],
    &["diagram"],
    &["export", "--to", "perfetto"],
    &["export", "--to", "pcapng"],
];

fn journals() -> Vec<Vec<u8>> {
    let root = concat!(env!("CARGO_MANIFEST_DIR"), "/../");
    let files = ["tools/data/two_hundred.journal", "bench/journals/w3a.journal", "bench/journals/w4b.journal"];
    let mut journals: Vec<_> = files.iter().map(|it| std::fs::read(format!("{root}{it}")).expect(it)).collect();
    let wide = Journal { bytes: journals[0].clone(), count: entries(&journals[0]).len() as u32 }.widened(200);
    journals.push(wide.bytes);
    journals
}

fn judge(words: &[&str], bytes: &[u8], name: &str) {
    let file = kept(name, bytes);
    let done = run(&[words, &[file.path()]].concat());
    let said = String::from_utf8_lossy(&done.stderr).into_owned();
    assert!(matches!(done.status.code(), Some(0 | 1)), "{words:?} {name}: {:?} {said}", done.status);
    assert!(said.is_empty() || said.starts_with("hullpippin: "), "{words:?} {name}: {said}");
}

#[test]
fn whole_journals_are_shown_by_each_word() {
    for bytes in journals() {
        for words in WORDS {
            let file = kept("whole", &bytes);
            let done = run(&[words, &[file.path()]].concat());
            assert!(done.status.success() && done.stderr.is_empty() && !done.stdout.is_empty(), "{words:?}");
        }
    }
}

#[test]
fn cut_anywhere() {
    let mut numbers = Numbers(1);
    for (index, bytes) in journals().iter().enumerate() {
        for turn in 0..40 {
            let end = if turn < 20 { turn } else { numbers.below(bytes.len()) };
            judge(WORDS[turn % WORDS.len()], &bytes[..end], &format!("cut-{index}-{turn}"));
        }
    }
}

#[test]
fn bits_turned() {
    let mut numbers = Numbers(2);
    for (index, bytes) in journals().iter().enumerate() {
        for turn in 0..60 {
            let mut bytes = bytes.clone();
            for _ in 0..=numbers.below(4) {
                let at = numbers.below(bytes.len());
                bytes[at] ^= 1 << numbers.below(8);
            }
            judge(WORDS[turn % WORDS.len()], &bytes, &format!("turned-{index}-{turn}"));
        }
    }
}

/// What is wrong with an index is told, or does no harm.
#[test]
fn bits_turned_in_an_index() {
    let mut numbers = Numbers(4);
    let mut bytes = journals().remove(1);
    let entries: Vec<Vec<u8>> = entries(&bytes).into_iter().map(<[u8]>::to_vec).collect();
    // The last of three rounds, again and again: enough for an index.
    let round = entries[entries.len() - 12..].concat();
    let rounds = 1500;
    (0..rounds).for_each(|_| bytes.extend(&round));
    let count = (entries.len() + 12 * rounds) as u32;
    bytes[12..16].copy_from_slice(&count.to_le_bytes());
    let file = kept("indexed", &bytes);
    assert_eq!(printed(&["index", file.path()]), "");
    let index = Kept(format!("{}.index", file.path()).into());
    let whole = std::fs::read(&index.0).expect("the index");
    for turn in 0..60 {
        let mut bytes = whole.clone();
        let at = numbers.below(bytes.len());
        bytes[at] ^= 1 << numbers.below(8);
        if turn % 6 == 0 {
            bytes.truncate(at);
        }
        std::fs::write(&index.0, &bytes).expect("the index");
        let done = run(&["show", file.path(), "--from", &(count - 3).to_string()]);
        let said = String::from_utf8_lossy(&done.stderr).into_owned();
        assert!(matches!(done.status.code(), Some(0 | 1)), "{turn}: {:?} {said}", done.status);
        assert!(said.is_empty() || said.starts_with("hullpippin: "), "{turn}: {said}");
    }
}

/// So is what lies beside a journal: times and names.
#[test]
fn bits_turned_beside_a_journal() {
    let mut numbers = Numbers(5);
    for turn in 0..60 {
        let file = Recorded::registered("beside");
        for kept in [&file.times, &file.who] {
            let mut bytes = std::fs::read(&kept.0).expect("what was written");
            for _ in 0..=numbers.below(3) {
                let at = numbers.below(bytes.len());
                bytes[at] ^= 1 << numbers.below(8);
            }
            if turn % 4 == 0 {
                bytes.truncate(numbers.below(bytes.len()));
            }
            std::fs::write(&kept.0, bytes).expect("the file");
        }
        let done = run(&[WORDS[turn % WORDS.len()], &[file.path()]].concat());
        let told = String::from_utf8_lossy(&done.stderr).into_owned();
        assert!(done.status.success(), "{turn}: {:?} {told}", done.status);
        assert!(told.lines().all(|it| it.starts_with("hullpippin: ")), "{turn}: {told}");
    }
}

/// Entries in another order make sense one by one, and none together.
#[test]
fn entries_that_do_not_follow() {
    let mut numbers = Numbers(3);
    for (index, bytes) in journals().iter().enumerate() {
        let entries = entries(bytes);
        for turn in 0..20 {
            let mut mixed = bytes[..heading_size(bytes)].to_vec();
            for _ in 0..entries.len() {
                mixed.extend(entries[numbers.below(entries.len())]);
            }
            judge(WORDS[turn % WORDS.len()], &mixed, &format!("mixed-{index}-{turn}"));
        }
    }
}

fn entries(bytes: &[u8]) -> Vec<&[u8]> {
    let number = |at: usize| u32::from_le_bytes(bytes[at..at + 4].try_into().expect("four")) as usize;
    let mut found = Vec::new();
    let mut at = heading_size(bytes);
    while at < bytes.len() {
        let answer = at + 8 + number(at + 4);
        let end = answer + 4 + number(answer);
        found.push(&bytes[at..end]);
        at = end;
    }
    found
}
