// SPDX-License-Identifier: Apache-2.0 OR MIT
//! The worked runs of examples/ by two seats of one driver, each in a thread of its own.
//!
//!     ping one-way|call [JOURNAL]
use hullpippin::{verdict_on, Answer, Command, Driver, Error, Outcome, Parcel, Seat, Verdict, ONE_WAY};
use std::process::ExitCode;
use std::sync::atomic::{AtomicBool, Ordering};
use std::thread;

/// The lines of a part, each with its number.
type Lines = Vec<(u32, String)>;

/// A part has failed, so the other's turn won't come.
static FAILED: AtomicBool = AtomicBool::new(false);

fn hex(bytes: &[u8]) -> String {
    if bytes.is_empty() {
        "-".into()
    } else {
        bytes.iter().map(|byte| format!("{byte:02x}")).collect()
    }
}

/// What the player prints for an outcome.
fn told(outcome: Outcome) -> Result<String, String> {
    let Outcome::Done { answer, from, to } = outcome else {
        return Err(format!("it comes back: {outcome:?}"));
    };
    let said = match answer {
        Answer::Opened => "opened".into(),
        Answer::Set => "set".into(),
        Answer::Exited => "exited".into(),
        Answer::Wrote { consumed, stop: None, .. } => format!("wrote {consumed}"),
        Answer::Got { stream, data, offsets } => format!("got {} {} {}", hex(&stream), hex(&data), hex(&offsets)),
        answer => return Err(format!("another answer: {answer:?}")),
    };
    Ok(format!("{said} {from} {to}"))
}

/// One thread's seat, and what it has to print.
struct Part {
    seat: Seat,
    lines: Lines,
}

impl Part {
    fn say(&mut self, line: u32, outcome: Result<Outcome, Error>) -> Result<(), String> {
        let said = told(outcome.map_err(|error| error.to_string())?)?;
        self.lines.push((line, said));
        Ok(())
    }

    /// Waits until the history has so many steps and the engine is free. A step is published before the engine is put
    /// back, so a call that is made in between comes back.
    fn wait_for(&mut self, stamp: u32) -> Result<(), String> {
        loop {
            let page = self.seat.look();
            if page.stamp >= stamp && !page.taken {
                return Ok(());
            }
            if FAILED.load(Ordering::SeqCst) {
                return Err("the other part has failed".into());
            }
            thread::yield_now();
        }
    }

    /// The context manager's part.
    fn serve(&mut self, two_way: bool) -> Result<(), String> {
        let opened = self.seat.open(100, 1000, 4096);
        self.say(2, opened)?;
        let set = self.seat.manager();
        self.say(3, set)?;
        let wrote = self.seat.command(&Command::EnterLooper);
        self.say(4, wrote)?;
        self.wait_for(6)?;
        let got = self.seat.read(256);
        self.say(8, got)?;
        if two_way {
            let wrote = self.seat.reply(0, 0, &Parcel::from(&[0x2a][..]));
            self.say(9, wrote)?;
            self.wait_for(9)?;
            let got = self.seat.read(256);
            self.say(11, got)?;
        }
        Ok(())
    }

    /// The client's part.
    fn ask(&mut self, two_way: bool) -> Result<(), String> {
        self.wait_for(3)?;
        let opened = self.seat.open(200, 2000, 4096);
        self.say(5, opened)?;
        let wrote = if two_way {
            self.seat.transact(0, 9, 0, &Parcel::from(&[1, 2, 3, 4][..]))
        } else {
            self.seat.transact(0, 7, ONE_WAY, &Parcel::from(&b"hi"[..]))
        };
        self.say(6, wrote)?;
        let got = self.seat.read(256);
        self.say(7, got)?;
        if two_way {
            self.wait_for(8)?;
            let got = self.seat.read(256);
            self.say(10, got)?;
            self.wait_for(10)?;
            let page = self.seat.look();
            self.lines.push((12, format!("page {} {:x} {}", page.stamp, page.ready, page.taken as u32)));
        }
        Ok(())
    }
}

/// Runs a part, and hands it back with what came of it.
fn ran(mut part: Part, work: impl FnOnce(&mut Part) -> Result<(), String>) -> (Part, Result<(), String>) {
    let done = work(&mut part);
    if done.is_err() {
        FAILED.store(true, Ordering::SeqCst);
    }
    (part, done)
}

/// Both parts, each in a thread of its own.
fn play(two_way: bool) -> Result<(Lines, Vec<u8>), String> {
    let text = |error: Error| error.to_string();
    let mut driver = Driver::new(2).map_err(text)?;
    let manager = Part { seat: driver.take_seat().map_err(text)?, lines: Vec::new() };
    let client = Part { seat: driver.take_seat().map_err(text)?, lines: Vec::new() };
    let parts = thread::scope(|scope| {
        let manager = scope.spawn(move || ran(manager, |part| part.serve(two_way)));
        let client = scope.spawn(move || ran(client, |part| part.ask(two_way)));
        [manager, client].map(|part| part.join().expect("a part has panicked"))
    });
    let mut lines = Vec::new();
    for (part, done) in parts {
        done?;
        driver.return_seat(part.seat).map_err(|it| text(it.error))?;
        lines.extend(part.lines);
    }
    lines.sort();
    let journal = driver.finish().map_err(|it| text(it.error))?.journal().map_err(text)?;
    match verdict_on(&journal).map_err(text)? {
        Verdict::Lawful(_) => Ok((lines, journal)),
        verdict => Err(format!("{verdict:?}")),
    }
}

fn main() -> ExitCode {
    let mut words = std::env::args().skip(1);
    let two_way = match words.next().as_deref() {
        Some("call") => true,
        Some("one-way") => false,
        _ => {
            eprintln!("ping one-way|call [JOURNAL]");
            return ExitCode::from(2);
        }
    };
    let done = play(two_way).and_then(|(lines, journal)| match words.next() {
        Some(path) => std::fs::write(path, journal).map(|()| lines).map_err(|error| error.to_string()),
        None => Ok(lines),
    });
    match done {
        Ok(lines) => {
            for (number, said) in lines {
                println!("{number}: {said}");
            }
            ExitCode::SUCCESS
        }
        Err(why) => {
            eprintln!("ping: {why}");
            ExitCode::FAILURE
        }
    }
}
