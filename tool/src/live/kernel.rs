// SPDX-License-Identifier: Apache-2.0 OR MIT
//! A line for each call of this machine's own kernel, as it ends.
use super::trace::{output, Trace};
use crate::chronicle::Chronicle;
use crate::kernel::trace::Seen;
use crate::kernel::tracefs::Live;
use crate::out::Palette;
use anyhow::Result;
use std::thread::sleep;
use std::time::Duration;

/// How long one waits before the next look.
const PAUSE: Duration = Duration::from_millis(20);

/// Tells calls until it is interrupted.
pub fn trace(given: &Trace, palette: Palette) -> Result<()> {
    let mut to = output(given)?;
    let palette = if given.output.is_some() { Palette::default() } else { palette };
    let chronicle = Chronicle::new(&given.wanted, palette);
    let mut live = Live::begin()?;
    let mut lines = Vec::new();
    loop {
        let has_any = live.look(&mut |seen, following| {
            if let Seen::Event(event) = seen {
                chronicle.told_by(event, following, &mut lines);
            }
            Ok(())
        })?;
        to.write_all(&lines)?;
        lines.clear();
        if !has_any {
            to.flush()?;
            sleep(PAUSE);
        }
    }
}
