// SPDX-License-Identifier: Apache-2.0 OR MIT
//! Programs that are run to be recorded: with the recording library before all others, and with the kernel's tracepoints where they
//! can be switched on.
use super::files::Files;
use crate::arguments::Record;
use crate::kernel::tracefs::{end_forgotten, Guard};
use crate::live::program::status_of;
use anyhow::{bail, ensure, Context, Result};
use nix::sys::signal::{sigaction, SaFlags, SigAction, SigHandler, SigSet, Signal};
use std::env;
use std::fs;
use std::io::Write;
use std::path::{Path, PathBuf};
use std::process::{Command, ExitStatus};

const LIBRARY: &str = "libhullpippin-record.so";
const INSTANCES: &str = "/sys/kernel/tracing/instances";
/// Kilobytes of a processor's buffer.
const BUFFER: &str = "16384";
/// What the search uses, and no more: each event costs the programs time.
const EVENTS: [&str; 13] = [
    "ioctl",
    "ioctl_done",
    "command",
    "return",
    "write_done",
    "read_done",
    "wait_for_work",
    "transaction",
    "transaction_received",
    "transaction_node_to_ref",
    "transaction_ref_to_node",
    "transaction_ref_to_ref",
    "transaction_buffer_release",
];

/// An instance of the kernel's tracing of our own: nobody else's is changed. It goes also where this process is killed.
struct Tracing {
    folder: PathBuf,
    _guard: Guard,
}

impl Tracing {
    fn begin() -> Result<Tracing> {
        end_forgotten(Path::new(INSTANCES));
        let folder = Path::new(INSTANCES).join(format!("hullpippin-{}", std::process::id()));
        let guard = Guard::start(&folder)?;
        fs::create_dir(&folder).with_context(|| folder.display().to_string())?;
        let tracing = Tracing { folder, _guard: guard };
        tracing.write("trace_clock", "mono")?;
        tracing.write("buffer_size_kb", BUFFER)?;
        for event in EVENTS {
            tracing.write(&format!("events/binder/binder_{event}/enable"), "1")?;
        }
        Ok(tracing)
    }

    fn write(&self, name: &str, word: &str) -> Result<()> {
        fs::write(self.folder.join(name), word).with_context(|| format!("the kernel's tracing has no {name}"))
    }

    fn save(&self, to: &Path) -> Result<()> {
        self.write("tracing_on", "0")?;
        fs::copy(self.folder.join("trace"), to).map(|_| ()).context("the trace can't be copied")
    }
}

/// The library: what HULLPIPPIN_RECORDER names, else the one that is installed beside this program.
fn library() -> Result<String> {
    let path = match env::var("HULLPIPPIN_RECORDER") {
        Ok(path) if !path.is_empty() => PathBuf::from(path),
        _ => {
            let program = env::current_exe().context("where this program is isn't known")?;
            let prefix = program.parent().and_then(Path::parent).map_or(PathBuf::new(), Path::to_path_buf);
            prefix.join("lib/hullpippin").join(LIBRARY)
        }
    };
    ensure!(path.is_file(), "{} isn't there: HULLPIPPIN_RECORDER may name the recording library", path.display());
    let path = fs::canonicalize(&path)?.display().to_string();
    // The loader takes what follows a space or a colon for another library.
    ensure!(!path.contains([' ', ':', '\t', '\n']), "LD_PRELOAD can't name {path}, which has a space or a colon");
    Ok(path)
}

/// The program, over a real device where there is one, else over the daemon. The library has to stand before all others.
fn command(library: &str, words: &[String]) -> Command {
    let before = |rest: Option<String>| rest.map_or(library.to_string(), |it| format!("{library}:{it}"));
    if Path::new("/dev/binder").exists() {
        let mut command = Command::new(&words[0]);
        command.args(&words[1..]).env("LD_PRELOAD", before(env::var("LD_PRELOAD").ok().filter(|it| !it.is_empty())));
        return command;
    }
    let mut command = Command::new(env::var("HULLPIPPIN_RUN").unwrap_or_else(|_| "hullpippin-run".into()));
    let script = "LD_PRELOAD=$HULLPIPPIN_RECORDER:$LD_PRELOAD exec \"$@\"";
    command.args(["sh", "-c", script, "sh"]).args(words).env("HULLPIPPIN_RECORDER", library);
    command
}

extern "C" fn nothing(_: i32) {}

/// What a terminal sends is for the program too, which may wait for ever: this process goes on and tells what was recorded. The program
/// does with it what it would, also where it was ignored before.
fn outlive(signal: Signal) -> Result<()> {
    let ours = SigAction::new(SigHandler::Handler(nothing), SaFlags::SA_RESTART, SigSet::empty());
    // SAFETY: the handler does nothing.
    let before = unsafe { sigaction(signal, &ours) }?;
    if before.handler() == SigHandler::SigIgn {
        // SAFETY: this is what stood there before.
        unsafe { sigaction(signal, &before) }?;
    }
    Ok(())
}

fn begin_folder(path: &Path) -> Result<()> {
    match fs::create_dir(path) {
        Ok(()) => Ok(()),
        Err(_) if path.is_dir() && fs::read_dir(path)?.next().is_none() => Ok(()),
        Err(why) => bail!("{}: {why}: a recording needs a folder of its own", path.display()),
    }
}

fn tell(folder: &str, out: &mut Vec<u8>) -> Result<()> {
    let files = match Files::read(folder) {
        Ok(files) => files,
        Err(why) => {
            writeln!(out, "nothing was recorded: {why:#}")?;
            writeln!(
                out,
                "a program that is linked statically, or that has more rights than who runs it, can't be recorded so"
            )?;
            return Ok(());
        }
    };
    let calls: usize = files.threads.iter().map(|it| it.calls.len()).sum();
    let missed: u64 = files.threads.iter().map(|it| it.missed).sum();
    let traced = if files.trace.is_some() { "with" } else { "without" };
    writeln!(out, "{folder}: {calls} calls of {} threads, {traced} the kernel's trace", files.threads.len())?;
    if missed > 0 {
        writeln!(out, "{missed} calls weren't kept: a thread's file was full, or a signal came in between")?;
    }
    writeln!(out, "next: hullpippin judge {folder}; then calls, show, leaks, holders, stats, diagram of {folder} too")?;
    Ok(())
}

/// Runs a program and keeps what it asks of Binder devices: the program's status.
pub fn record(given: &Record, out: &mut Vec<u8>) -> Result<u8> {
    let library = library()?;
    let folder = Path::new(&given.into);
    begin_folder(folder)?;
    let folder = fs::canonicalize(folder)?;
    let tracing = if given.no_trace { None } else { Tracing::begin().ok() };
    let mut command = command(&library, &given.program);
    command.env("HULLPIPPIN_RECORD", &folder);
    [Signal::SIGINT, Signal::SIGQUIT].into_iter().try_for_each(outlive)?;
    let status: ExitStatus = command.status().with_context(|| given.program[0].clone())?;
    if let Some(tracing) = tracing {
        tracing.save(&folder.join("trace"))?;
    }
    tell(&given.into, out)?;
    Ok(status_of(status))
}
