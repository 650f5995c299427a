// SPDX-License-Identifier: Apache-2.0 OR MIT
//! Standard output, or a pager before it; and colours.
use nix::libc::{ioctl, winsize, TIOCGWINSZ};
use nix::unistd::isatty;
use std::env;
use std::io::{self, Write};
use std::os::unix::io::AsRawFd;
use std::process::{Child, Command, Stdio};

/// How much is held before it is written.
const ROOM: usize = 1 << 16;

#[derive(Clone, Copy, Debug, PartialEq, Eq, clap::ValueEnum)]
pub enum When {
    Auto,
    Always,
    Never,
}

/// What stands before and behind each kind of word; nothing without colours.
#[derive(Clone, Debug, Default)]
pub struct Palette {
    pub place: String,
    pub name: String,
    pub refused: String,
    pub text: String,
    pub about: String,
    pub plain: String,
}

/// Colours of the 256 that terminals have: of those that can be read on black as on white, which a test reckons.
const GREY: u8 = 244;
const TEAL: u8 = 30;
const RED: u8 = 160;
const GREEN: u8 = 28;
const AMBER: u8 = 130;

/// Whether a person may look at what is written there.
pub fn is_terminal(output: &impl AsRawFd) -> bool {
    isatty(output.as_raw_fd()).unwrap_or(false)
}

/// How wide the terminal is; None where standard output is none.
pub fn width() -> Option<usize> {
    let mut size = winsize { ws_row: 0, ws_col: 0, ws_xpixel: 0, ws_ypixel: 0 };
    // (this call writes a winsize, and keeps nothing of it)
    let status = unsafe { ioctl(io::stdout().as_raw_fd(), TIOCGWINSZ, &mut size) };
    (status == 0 && size.ws_col > 0).then(|| usize::from(size.ws_col))
}

impl Palette {
    fn colours() -> Palette {
        let of = |colour: u8| format!("\x1b[38;5;{colour}m");
        Palette {
            place: of(GREY),
            name: of(TEAL),
            refused: of(RED),
            text: of(GREEN),
            about: of(AMBER),
            plain: "\x1b[0m".into(),
        }
    }

    /// Colours as one wants them: by themselves where a person looks, and nobody has set NO_COLOR.
    pub fn new(when: When) -> Palette {
        let is_wanted = match when {
            When::Always => true,
            When::Never => false,
            When::Auto => {
                let refuses = env::var_os("NO_COLOR").map_or(false, |it| !it.is_empty());
                !refuses && is_terminal(&io::stdout()) && env::var_os("TERM").map_or(true, |it| it != "dumb")
            }
        };
        if is_wanted {
            Palette::colours()
        } else {
            Palette::default()
        }
    }
}

/// Standard output, perhaps by a pager. What is printed is held until there is enough of it.
pub struct Out {
    pub held: Vec<u8>,
    pager: Option<Child>,
}

impl Out {
    /// Output by a pager where a person looks, unless the person doesn't want it.
    pub fn new(with_pager: bool) -> Out {
        let pager = (with_pager && is_terminal(&io::stdout())).then(start_pager).flatten();
        Out { held: Vec::with_capacity(2 * ROOM), pager }
    }

    /// Writes what is held, once it is much.
    pub fn pass(&mut self) -> io::Result<()> {
        if self.held.len() < ROOM {
            return Ok(());
        }
        self.flush()
    }

    pub fn flush(&mut self) -> io::Result<()> {
        match self.pager.as_mut().and_then(|it| it.stdin.as_mut()) {
            Some(pager) => pager.write_all(&self.held)?,
            None => {
                let mut stdout = io::stdout().lock();
                stdout.write_all(&self.held)?;
                stdout.flush()?;
            }
        }
        self.held.clear();
        Ok(())
    }

    /// Writes the rest, and waits for the pager.
    pub fn close(mut self) -> io::Result<()> {
        let written = self.flush();
        if let Some(mut pager) = self.pager.take() {
            drop(pager.stdin.take());
            pager.wait()?;
        }
        written
    }
}

/// HULLPIPPIN_PAGER, else PAGER, else less: as words, without a shell. None where there is none.
fn start_pager() -> Option<Child> {
    let words = env::var("HULLPIPPIN_PAGER").or_else(|_| env::var("PAGER")).unwrap_or_else(|_| "less".into());
    let mut words = words.split_whitespace();
    let mut command = Command::new(words.next()?);
    command.args(words).stdin(Stdio::piped());
    if env::var_os("LESS").is_none() {
        command.env("LESS", "FRX");
    }
    command.spawn().ok()
}

#[cfg(test)]
mod tests {
    use super::*;

    /// The colour of a number from 16 on: a cube of six steps each, and then greys.
    fn colour(number: u8) -> [u8; 3] {
        let step = |it: u8| if it == 0 { 0 } else { 55 + 40 * it };
        match number {
            16..=231 => [36, 6, 1].map(|by| step((number - 16) / by % 6)),
            _ => [8 + 10 * (number - 232); 3],
        }
    }

    /// How light a colour is, as the guidelines for contrast on the web have it.
    fn lightness(colour: [u8; 3]) -> f64 {
        let linear = |it: u8| {
            let it = f64::from(it) / 255.0;
            if it <= 0.03928 {
                it / 12.92
            } else {
                ((it + 0.055) / 1.055).powf(2.4)
            }
        };
        let [red, green, blue] = colour.map(linear);
        0.2126 * red + 0.7152 * green + 0.0722 * blue
    }

    #[test]
    fn colours_can_be_read_on_black_and_on_white() {
        for number in [GREY, TEAL, RED, GREEN, AMBER] {
            let light = lightness(colour(number));
            let (on_black, on_white) = ((light + 0.05) / 0.05, 1.05 / (light + 0.05));
            assert!(on_black > 3.5 && on_white > 3.5, "{number}: {on_black:.1} on black, {on_white:.1} on white");
        }
    }
}
