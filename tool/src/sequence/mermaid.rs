// SPDX-License-Identifier: Apache-2.0 OR MIT
//! A diagram in Mermaid's language. A call is drawn where it is handed out.
use super::labels::{kind_words, row_words, sent_words};
use super::model::{Diagram, Doing, Event, Kind, Lane, Row, Span, Thing};
use crate::out::Out;
use std::io::{self, Write};

/// Prints the lanes, and the box of each process around its own.
fn put_lanes(to: &mut Vec<u8>, lanes: &[Lane]) -> io::Result<()> {
    let mut leader = None;
    for lane in lanes {
        if leader != Some(lane.leader) {
            if leader.is_some() {
                writeln!(to, "    end")?;
            }
            leader = Some(lane.leader);
            writeln!(to, "    box pid {}", lane.pid.map_or("-".into(), |it| it.to_string()))?;
        }
        let name = lane.name.as_ref().map_or(String::new(), |it| format!(" {it}"));
        writeln!(to, "    participant s{0} as seat {0}{name}", lane.seat)?;
    }
    leader.map_or(Ok(()), |_| writeln!(to, "    end"))
}

fn put_row(to: &mut Vec<u8>, diagram: &Diagram, row: &Row) -> io::Result<()> {
    let (seat, place) = (row.seat, row.place);
    match row.event {
        Event::Sent(index) if diagram.is_unread(index) => {
            writeln!(to, "    s{seat}-xs{seat}: {place} {}", sent_words(&diagram.arrows[index]))
        }
        Event::Sent(_) => Ok(()),
        Event::Got(index) => {
            let arrow = &diagram.arrows[index];
            // Whoever gets a call serves it from here on.
            let line = match arrow.kind {
                Kind::Call { .. } => "->>+",
                Kind::OneWay { .. } => "-)",
                Kind::Reply { .. } => "-->>",
            };
            writeln!(to, "    s{}{line}s{seat}: {} {}", arrow.sender, arrow.made, kind_words(arrow.kind))
        }
        _ => writeln!(to, "    Note over s{seat}: {place} {}", row_words(diagram, row)),
    }
}

/// Prints that a call is served from before all rows on, or no longer.
fn put_serving(to: &mut Vec<u8>, span: &Span, word: &str) -> io::Result<()> {
    if span.doing == Doing::Serves {
        writeln!(to, "    {word} s{}", span.seat)?;
    }
    Ok(())
}

pub fn put(out: &mut Out, diagram: &Diagram) -> io::Result<()> {
    writeln!(out.held, "sequenceDiagram")?;
    put_lanes(&mut out.held, &diagram.lanes)?;
    for thing in &diagram.things {
        out.pass()?;
        let to = &mut out.held;
        match thing {
            Thing::Row(row) => put_row(to, diagram, row)?,
            Thing::Begins(span) if span.from.is_none() => put_serving(to, span, "activate")?,
            Thing::Begins(_) => {}
            Thing::Ends(span) => put_serving(to, span, "deactivate")?,
        }
    }
    Ok(())
}
