// SPDX-License-Identifier: Apache-2.0 OR MIT
//! Binder's tracepoints of the kernel that runs here, switched on in an instance of their own in tracefs, which others' traces know nothing
//! of. A second process sees to it that the instance goes in the end, also when this one is killed.
use super::following::Following;
use super::trace::{Reader, Seen};
use anyhow::{bail, Context, Result};
use nix::errno::Errno;
use nix::sys::signal::{SigSet, SigmaskHow};
use nix::time::{clock_gettime, ClockId};
use std::fs::{self, File, OpenOptions};
use std::io::{self, ErrorKind, Read, Write};
use std::os::unix::fs::OpenOptionsExt;
use std::path::{Path, PathBuf};
use std::process::{Child, ChildStdin, Command, Stdio};
use std::thread::sleep;
use std::time::Duration;

/// Where tracefs is mounted, by itself or within debugfs.
const PLACES: [&str; 2] = ["/sys/kernel/tracing", "/sys/kernel/debug/tracing"];
const PREFIX: &str = "hullpippin-";
/// How often, and after how long, an instance that is still read is tried again.
const TRIES: u32 = 200;
const PAUSE: Duration = Duration::from_millis(50);
const READY: &[u8] = b"ready\n";
/// How much of the kernel's text is read at once; and how long a line may be that isn't whole yet.
const ROOM: usize = 1 << 16;
const LONGEST: usize = 1 << 16;

/// Why tracing can't be had, with what it needs.
fn place() -> Result<PathBuf> {
    let mut reason = "no tracefs is mounted here: as root, mount -t tracefs tracefs /sys/kernel/tracing".to_string();
    for place in PLACES.map(Path::new) {
        match fs::metadata(place.join("events")) {
            Ok(_) if place.join("events/binder").is_dir() => return Ok(place.into()),
            Ok(_) => {
                reason = format!(
                    "{}: this kernel has no tracepoints of Binder's: its driver isn't there, or is another",
                    place.display()
                )
            }
            Err(error) if error.kind() == ErrorKind::PermissionDenied => {
                reason = format!("{}: {error}; tracepoints are switched on by root", place.display());
            }
            Err(_) => {}
        }
    }
    bail!("{reason}")
}

/// Ends an instance: its events first, so that nobody waits for them.
fn end(instance: &Path) -> io::Result<()> {
    // Where this fails the folder goes all the same, or says why it doesn't.
    let _ = fs::write(instance.join("events/enable"), "0");
    // Of a process that is killed the files are closed one after the other, and trace_pipe perhaps last.
    for _ in 0..TRIES {
        match fs::remove_dir(instance) {
            Err(error) if error.raw_os_error() == Some(Errno::EBUSY as i32) => sleep(PAUSE),
            done => return done,
        }
    }
    fs::remove_dir(instance)
}

/// Ends instances whose makers have ended, both the one that read and the one that saw to it.
pub fn end_forgotten(instances: &Path) {
    for entry in fs::read_dir(instances).into_iter().flatten().flatten() {
        let name = entry.file_name().to_string_lossy().into_owned();
        let pid = name.strip_prefix(PREFIX).and_then(|it| it.parse::<u32>().ok());
        if pid.map_or(false, |pid| !Path::new(&format!("/proc/{pid}")).exists()) {
            let _ = end(&entry.path());
        }
    }
}

/// What the second process does: it waits until nobody holds its standard input any more, and ends the instance. No signal that is for
/// the first one ends it before.
pub fn guard(instance: &Path) -> Result<()> {
    let is_ours = instance.file_name().map_or(false, |it| it.to_string_lossy().starts_with(PREFIX));
    if !is_ours || !PLACES.iter().any(|it| instance.parent() == Some(&Path::new(it).join("instances"))) {
        bail!("{}: this is no instance of tracing that was made here", instance.display());
    }
    nix::sys::signal::pthread_sigmask(SigmaskHow::SIG_BLOCK, Some(&SigSet::all()), None)?;
    let _ = nix::unistd::setsid();
    io::stdout().write_all(READY)?;
    io::stdout().flush()?;
    io::copy(&mut io::stdin(), &mut io::sink())?;
    match end(instance) {
        Err(error) if error.kind() != ErrorKind::NotFound => Err(error).context(instance.display().to_string()),
        _ => Ok(()),
    }
}

/// The second process.
pub struct Guard {
    child: Child,
    held: Option<ChildStdin>,
}

impl Guard {
    pub fn start(instance: &Path) -> Result<Guard> {
        let mut command = Command::new("/proc/self/exe");
        command.arg("kernel-guard").arg(instance).stdin(Stdio::piped()).stdout(Stdio::piped());
        let mut child = command.spawn().context("the process that ends the tracing")?;
        let mut ready = [0; READY.len()];
        child
            .stdout
            .take()
            .context("its output")?
            .read_exact(&mut ready)
            .context("the process that ends the tracing")?;
        let held = child.stdin.take();
        Ok(Guard { child, held })
    }
}

impl Drop for Guard {
    fn drop(&mut self) {
        drop(self.held.take());
        let _ = self.child.wait();
    }
}

/// Events as they happen.
pub struct Live {
    pub reader: Reader,
    pipe: File,
    held: Vec<u8>,
    lines: u64,
    _guard: Guard,
}

fn set(instance: &Path, file: &str, value: &str) -> Result<()> {
    let path = instance.join(file);
    fs::write(&path, value).with_context(|| path.display().to_string())
}

/// How many nanoseconds the clock of real time is ahead of the monotonic one.
fn ahead() -> Option<u64> {
    let of = |clock| {
        let time = clock_gettime(clock).ok()?;
        u64::try_from(time.tv_sec()).ok()?.checked_mul(1_000_000_000)?.checked_add(time.tv_nsec() as u64)
    };
    Some(of(ClockId::CLOCK_REALTIME)?.wrapping_sub(of(ClockId::CLOCK_MONOTONIC)?))
}

impl Live {
    /// Switches all of Binder's tracepoints on.
    pub fn begin() -> Result<Live> {
        let instances = place()?.join("instances");
        end_forgotten(&instances);
        let instance = instances.join(format!("{PREFIX}{}", std::process::id()));
        let guard = Guard::start(&instance)?;
        fs::create_dir(&instance)
            .with_context(|| format!("{}: tracepoints are switched on by root", instance.display()))?;
        set(&instance, "trace_clock", "mono")?;
        // An older kernel has this for all instances together; which process a thread is of is then told by its calls.
        let _ = set(&instance, "options/record-tgid", "1");
        let mut options = OpenOptions::new();
        let pipe = options.read(true).custom_flags(nix::fcntl::OFlag::O_NONBLOCK.bits());
        let pipe = pipe.open(instance.join("trace_pipe")).context("trace_pipe")?;
        set(&instance, "events/binder/enable", "1")?;
        let mut reader = Reader::default();
        reader.following.ahead = ahead();
        Ok(Live { reader, pipe, held: Vec::new(), lines: 0, _guard: guard })
    }

    /// Takes what there is by now, and calls this for what it has told; whether there was anything.
    pub fn look(&mut self, call: &mut dyn FnMut(Seen<'_>, &Following) -> Result<()>) -> Result<bool> {
        let from = self.held.len();
        self.held.resize(from + ROOM, 0);
        let read = self.pipe.read(&mut self.held[from..]);
        self.held.truncate(from + *read.as_ref().unwrap_or(&0));
        match read {
            Ok(0) => Ok(false),
            Ok(_) => self.told(call).map(|()| true),
            Err(error)
                if error.kind() == ErrorKind::WouldBlock || error.raw_os_error() == Some(Errno::EINTR as i32) =>
            {
                Ok(false)
            }
            Err(error) => Err(error).context("trace_pipe"),
        }
    }

    fn told(&mut self, call: &mut dyn FnMut(Seen<'_>, &Following) -> Result<()>) -> Result<()> {
        let whole = self.held.iter().rposition(|it| *it == b'\n').map_or(0, |it| it + 1);
        for line in self.held[..whole].split(|it| *it == b'\n') {
            self.lines += 1;
            self.reader.line(self.lines, line, call)?;
        }
        self.held.drain(..whole);
        if self.held.len() > LONGEST {
            bail!("trace_pipe has a line of more than {LONGEST} bytes");
        }
        Ok(())
    }
}
