// SPDX-License-Identifier: Apache-2.0 OR MIT
//! The model of the rules beside the player that HULLPIPPIN_PLAYER names: what both print of the worked examples, of the scripts of the
//! differences without their waiting, and of three hundred scripts that are made up here, others each time (HULLPIPPIN_SEED names the
//! first). `tool/check` runs what needs the player where there is one.
mod common;
use common::*;
use serde_json::Value;
use std::fmt::Write as _;
use std::fs;
use std::path::{Path, PathBuf};
use std::process::Command;
use std::time::{SystemTime, UNIX_EPOCH};

const EXAMPLES: &str = concat!(env!("CARGO_MANIFEST_DIR"), "/../examples");
const KINDS: &str = concat!(env!("CARGO_MANIFEST_DIR"), "/../clients/kernel/kinds");

fn player(script: &Path) -> String {
    let name = std::env::var_os("HULLPIPPIN_PLAYER").expect("HULLPIPPIN_PLAYER names the player");
    let done = Command::new(name).arg("run").arg(script).args(["--turns", "1000"]).output().expect("the player");
    String::from_utf8(done.stdout).expect("text")
}

fn model(script: &Path) -> String {
    printed(&["rules", script.to_str().expect("a path of letters")])
}

/// The first line in which the two differ.
fn difference(script: &Path) -> Option<String> {
    let (ours, theirs) = (model(script), player(script));
    let differs = ours.lines().zip(theirs.lines()).find(|(ours, theirs)| ours != theirs);
    let told = differs.map(|(ours, theirs)| format!("{}: {ours}, and the player {theirs}", script.display()));
    told.or_else(|| Some(format!("{}: other lines", script.display())).filter(|_| ours != theirs))
}

fn scripts(folder: &str) -> Vec<PathBuf> {
    let files = fs::read_dir(folder).expect("a folder").map(|it| it.expect("a file").path());
    files.filter(|it| it.extension().map_or(false, |it| it == "script")).collect()
}

/// Numbers from a seed.
struct Dice(u64);

impl Dice {
    fn below(&mut self, end: u64) -> u64 {
        self.0 = self.0.wrapping_mul(6_364_136_223_846_793_005).wrapping_add(1_442_695_040_888_963_407);
        (self.0 >> 33) % end
    }

    fn of<'a>(&mut self, words: &[&'a str]) -> &'a str {
        words[self.below(words.len() as u64) as usize]
    }
}

/// A parcel's data and offsets: up to three objects, now and then one that is faulty.
fn parcel(dice: &mut Dice) -> (String, String) {
    let (mut data, mut offsets) = (String::new(), Vec::new());
    for _ in 0..dice.below(4) {
        let kind =
            dice.of(&["852a6273", "852a6273", "852a6277", "852a6873", "852a6873", "852a6877", "852a6466", "00000000"]);
        let (value, cookie) = (dice.below(4), dice.below(20) / 19);
        let value = if kind.contains("62") { 4096 + 8 * (value % 2) } else { value };
        offsets.push((data.len() / 2) as u64 + 4 * (dice.below(30) / 29));
        let _ = write!(data, "{kind}7f010000");
        for number in [value, 77 + cookie] {
            data.extend(number.to_le_bytes().iter().map(|it| format!("{it:02x}")));
        }
    }
    for _ in 0..dice.below(3) {
        data.push_str("68690000");
    }
    let told: Vec<String> = offsets.iter().map(u64::to_string).collect();
    let or_none = |it: String| if it.is_empty() { "-".into() } else { it };
    (or_none(data), or_none(told.join(",")))
}

/// What a line does, of those that most often come to something.
fn verb(dice: &mut Dice) -> String {
    let (handle, ptr, cookie) = (dice.below(4), 4096 + 8 * dice.below(2), 77 + dice.below(20) / 19);
    match dice.below(40) {
        0..=9 => format!("read {}", dice.of(&["256", "256", "256", "72", "100", "71"])),
        10..=16 => {
            let (data, offsets) = parcel(dice);
            format!("tx {handle} 7 {} {data} {offsets}", dice.below(2))
        }
        17..=22 => {
            let (data, offsets) = parcel(dice);
            format!("reply 3 0 {data} {offsets}")
        }
        23..=27 => format!("free {}", 65536 + 8 * dice.below(12)),
        28..=30 => format!("{} {handle}", dice.of(&["acquire", "increfs", "release", "decrefs"])),
        31..=33 => format!("{} {ptr} {cookie}", dice.of(&["acquiredone", "increfsdone"])),
        34..=35 => format!("{} {handle} {}", dice.of(&["askdeath", "askdeath", "cleardeath"]), 5 + dice.below(2)),
        36 => format!("deaddone {}", 5 + dice.below(2)),
        37 => dice.of(&["enter", "exitloop", "enter", "manager", "spam 1", "spam 0", "look"]).into(),
        38 => dice.of(&["exitthread", "exitprocess", "attach 100", "attach 200", "open 300 3 4096", "enter"]).into(),
        _ => "write 0c6300000563044001000000 -".into(),
    }
}

fn made(seed: u64, lines: u64) -> String {
    let mut dice = Dice(seed);
    let mut text = "seats 5\n0 open 100 1 4096\n0 manager\n0 enter\n1 open 200 2 4096\n1 enter\n2 open 300 3 8192\n2 enter\n3 attach 200\n"
        .to_string();
    for _ in 0..lines {
        let _ = writeln!(text, "{} {}", dice.below(5), verb(&mut dice));
    }
    text
}

#[test]
#[ignore = "it needs a player"]
fn the_model_prints_what_the_player_prints() {
    let all = [scripts(EXAMPLES), scripts(&format!("{EXAMPLES}/words"))].concat();
    assert!(all.len() > 100, "{} examples", all.len());
    let differs: Vec<String> = all.iter().filter_map(|it| difference(it)).collect();
    assert!(differs.is_empty(), "{differs:#?}");
}

/// What a dialogue answers to the lines of a script.
fn answers(script: &Path, ways: &str) -> Vec<Value> {
    let done = fed(&["rules", "-", "--format", "json", "--ways", ways], &fs::read(script).expect("a script"));
    assert!(done.status.success(), "{}", String::from_utf8_lossy(&done.stderr));
    let lines = String::from_utf8(done.stdout).expect("text");
    lines.lines().map(|it| serde_json::from_str(it).expect("a value")).collect()
}

/// What a script with waiting reads comes to is played by the player too: its requests in the order in which they are made.
#[test]
#[ignore = "it needs a player"]
fn without_its_waiting_a_script_is_the_players() {
    for script in scripts(KINDS) {
        let (mut plain, mut expected) = ("seats 6\n".to_string(), Vec::new());
        for answer in answers(&script, "") {
            for it in answer["plain"].as_array().expect("requests") {
                let _ = writeln!(plain, "{}", it[0].as_str().expect("a line"));
                expected.push(format!("{}: {}", expected.len() + 2, it[1].as_str().expect("its answer")));
            }
        }
        let file = kept("plain.script", plain.as_bytes());
        assert_eq!(player(Path::new(file.path())).lines().collect::<Vec<_>>(), expected, "{}", script.display());
    }
}

#[test]
#[ignore = "it needs a player"]
fn so_it_does_of_made_up_scripts() {
    let first = match std::env::var("HULLPIPPIN_SEED") {
        Ok(seed) => seed.parse().expect("a number"),
        Err(_) => SystemTime::now().duration_since(UNIX_EPOCH).expect("a time").as_secs(),
    };
    for seed in first..first + 300 {
        let script = kept(&format!("made-{seed}.script"), made(seed, 150).as_bytes());
        let path = PathBuf::from(script.path());
        assert_eq!(difference(&path), None, "seed {seed}");
    }
}

/// Scripts that are made up so come to what there is to be compared; not all of it in any three hundred.
#[test]
fn made_up_scripts_reach_far() {
    let mut come_about = String::new();
    for seed in 0..300 {
        let script = kept(&format!("far-{seed}.script"), made(seed, 150).as_bytes());
        come_about.push_str(&model(Path::new(script.path())));
    }
    let reached = [
        "got 0c72000002724080",
        "got 0c7200000f720880",
        "stop X5",
        "stop X12",
        "stop X15",
        "stop X11",
        ":N3",
        ":N9",
        ":N6",
        "09721080",
    ];
    for word in reached {
        assert!(come_about.contains(word), "no script comes to {word}");
    }
}

/// Each difference that scripts can show is one: beside all the others its script is answered otherwise with it than without.
#[test]
fn each_switch_changes_what_its_script_prints() {
    let names = scripts(KINDS);
    let names = || names.iter().filter_map(|it| it.file_stem()?.to_str());
    let all = names().collect::<Vec<_>>().join(",");
    let mut shown = 0;
    for script in scripts(KINDS) {
        let name = script.file_stem().and_then(|it| it.to_str()).expect("a name").to_string();
        let path = script.to_str().expect("a path of letters");
        let others = names().filter(|it| *it != name).collect::<Vec<_>>().join(",");
        assert!(printed(&["rules", path, "--ways", &all]) != printed(&["rules", path, "--ways", &others]), "{name}");
        shown += 1;
    }
    assert_eq!(shown, 22);
}

/// What each line says to a program is what the script prints.
#[test]
fn a_dialogue_says_what_is_printed() {
    for script in scripts(KINDS) {
        let printed = printed(&["rules", script.to_str().expect("a path of letters"), "--ways", "waiter,notices"]);
        let mut said = Vec::new();
        for answer in answers(&script, "waiter,notices") {
            let all = answer["said"].as_array().expect("answers");
            said.push(all[0][1].as_str().expect("text").to_string());
            said.extend(all[1..].iter().map(|it| format!("seat {} {}", it[0], it[1].as_str().expect("text"))));
        }
        let printed: Vec<&str> = printed.lines().map(|it| it.split_once(": ").expect("a number").1).collect();
        assert_eq!(printed, said, "{}", script.display());
    }
}

/// A seat that waits reads as soon as there is something: by the rules who waits longest, by the driver who has begun last.
#[test]
fn reads_that_wait_come_to_their_end() {
    let script =
        "seats 3\n0 open 100 0 4096\n0 manager\n1 attach 100\n2 open 200 0 4096\n0 enter\n1 enter\n0 wait 256\n\
                  1 wait 256\n2 tx 0 7 1 6869 -\n";
    let file = kept("waits.script", script.as_bytes());
    let brought =
        |ways: &str| printed(&["rules", file.path(), "--ways", ways]).lines().last().expect("a line").to_string();
    assert!(brought("").starts_with("10: seat 0 got 0c720000027240"), "{}", brought(""));
    assert!(brought("waiter").starts_with("10: seat 1 got 0c720000027240"), "{}", brought("waiter"));
}

/// Between two lines a program may ask what there is; parcels are called by who has read them.
#[test]
fn a_dialogue_tells_what_there_is() {
    let script = "seats 2\n0 open 100 0 4096\n0 manager\n0 enter\n1 open 200 0 4096\n1 tx 0 7 0 - -\n0 read 256\n\
                  0 free 65536\nstate\nways order\nseats 1\n0 open 300 0 4096\nstate\n";
    let file = kept("state.script", script.as_bytes());
    let told = answers(Path::new(file.path()), "");
    assert_eq!(told[5]["said"][0][0], 0);
    assert_eq!(told[6]["keyed"], "0 write 036308400000000000000080 -");
    let seen = &told[7];
    assert_eq!(seen["manager"], 100);
    assert_eq!(seen["threads"][0]["serves"], true);
    assert_eq!((&seen["threads"][1]["owed"], &seen["threads"][1]["ready"]), (&1.into(), &true.into()));
    assert_eq!(seen["processes"][0]["objects"][0]["ptr"], 0);
    assert_eq!(seen["processes"][0]["parcels"].as_array().expect("keys").len(), 0);
    assert_eq!(told[9]["processes"].as_array().expect("processes").len(), 1);
}

#[test]
fn a_way_that_there_isnt_is_refused() {
    let script = kept("ways.script", b"seats 1\n0 open 1 1 4096\n");
    let told = fault(&["rules", script.path(), "--ways", "order,other"]);
    assert!(told.contains("other is none of the differences"), "{told}");
}
