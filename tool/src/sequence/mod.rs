// SPDX-License-Identifier: Apache-2.0 OR MIT
//! A range of a recording as a sequence diagram: for a terminal, for Mermaid, or as a picture. Each entry that leaves a mark has a row;
//! a page of HTML, which is for long ranges, has its own drawing.
mod labels;
mod mermaid;
mod model;
mod plot;
mod svg;
mod text;
mod traced;
mod tracks;

use crate::arguments::Drawn;
use crate::kernel::trace::Trace;
use crate::out::Out;
use crate::play::{Player, Range};
use anyhow::Result;

/// Draws a range.
pub fn put(player: &mut Player, range: Range, form: Drawn, out: &mut Out) -> Result<()> {
    draw(&plot::plotted(player, range)?, form, out)
}

/// Draws a range of a kernel's trace.
pub fn put_trace(trace: &mut Trace, range: Range, form: Drawn, out: &mut Out) -> Result<()> {
    let (diagram, done) = traced::plotted(trace, range);
    draw(&diagram, form, out)?;
    done
}

fn draw(diagram: &model::Diagram, form: Drawn, out: &mut Out) -> Result<()> {
    match form {
        Drawn::Text => text::put(out, diagram)?,
        Drawn::Mermaid => mermaid::put(out, diagram)?,
        Drawn::Svg | Drawn::Html => svg::put(out, diagram)?,
    }
    Ok(())
}
