// SPDX-License-Identifier: Apache-2.0 OR MIT
//! A program that is run over the daemon to be looked at, with all that it starts.
use super::Where;
use anyhow::{bail, ensure, Context, Result};
use std::collections::HashMap;
use std::env;
use std::fs;
use std::os::unix::process::ExitStatusExt;
use std::process::{Child, Command, ExitStatus};

/// How far one looks up for who started a process.
const MOST_PARENTS: usize = 64;

pub struct Program {
    child: Child,
    /// Whether a process is the program's; those that have ended can't be asked any more.
    is_own: HashMap<u32, bool>,
}

/// `hullpippin-run`, which brings programs to the daemon: the one that HULLPIPPIN_RUN names, or else the one on the path.
fn runner(place: &Where) -> (String, Command) {
    let name = env::var("HULLPIPPIN_RUN").unwrap_or_else(|_| "hullpippin-run".into());
    let mut command = Command::new(&name);
    if let Some(socket) = &place.socket {
        command.env("HULLPIPPIN_SOCKET", socket);
    }
    (name, command)
}

/// Starts a daemon where there is none, by a program that does nothing.
pub fn start_daemon(place: &Where) -> Result<()> {
    let (name, mut command) = runner(place);
    let status = command.arg("true").status().with_context(|| format!("{name}, which HULLPIPPIN_RUN may name"))?;
    ensure!(status.success(), "{name} true: it ended with {status}");
    Ok(())
}

impl Program {
    pub fn start(place: &Where, words: &[String]) -> Result<Program> {
        let (name, mut command) = runner(place);
        let child = command.args(words).spawn().with_context(|| format!("{name}, which HULLPIPPIN_RUN may name"))?;
        let is_own = HashMap::from([(child.id(), true)]);
        Ok(Program { child, is_own })
    }

    /// Whether a process is the program, or was started by it.
    pub fn has(&mut self, pid: u32) -> bool {
        let mut line = Vec::new();
        let mut at = Some(pid);
        let mut found = false;
        while let Some(pid) = at.filter(|it| *it > 1 && line.len() < MOST_PARENTS) {
            if let Some(known) = self.is_own.get(&pid) {
                found = *known;
                break;
            }
            line.push(pid);
            at = parent(pid);
        }
        self.is_own.extend(line.into_iter().map(|it| (it, found)));
        found
    }

    /// How it has ended; None while it runs.
    pub fn ended(&mut self) -> Result<Option<ExitStatus>> {
        Ok(self.child.try_wait()?)
    }
}

/// As a shell tells it: the status, or 128 and the signal.
pub fn status_of(ended: ExitStatus) -> u8 {
    let status = ended.code().or_else(|| ended.signal().map(|it| 128 + it));
    status.and_then(|it| u8::try_from(it).ok()).unwrap_or(1)
}

/// Who started a process, from what the system tells: behind its name in brackets come its state and that pid.
fn parent(pid: u32) -> Option<u32> {
    let told = fs::read_to_string(format!("/proc/{pid}/stat")).ok()?;
    told.rsplit_once(')')?.1.split_whitespace().nth(1)?.parse().ok()
}

/// Whether words name a program.
pub fn check(words: &[String]) -> Result<()> {
    match words.first() {
        Some(word) if word.starts_with('-') => bail!("{word}: options stand before the program"),
        _ => Ok(()),
    }
}

#[cfg(test)]
mod tests {
    use super::*;

    #[test]
    fn who_started_this_is_found() {
        let mut child = Command::new("sleep").arg("100").spawn().expect("sleep");
        assert_eq!(parent(child.id()), Some(std::process::id()));
        child.kill().and_then(|()| child.wait()).expect("its end");
        assert_eq!(parent(child.id()), None);
    }

    #[test]
    fn statuses_are_told_as_a_shell_does() {
        assert_eq!([0, 7 << 8, 9].map(|it| status_of(ExitStatus::from_raw(it))), [0, 7, 137]);
    }
}
