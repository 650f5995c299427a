// SPDX-License-Identifier: Apache-2.0 OR MIT
//! A diagram as a picture: a file of SVG that stands alone.
use super::labels::{kind_words, row_words, span_words};
use super::model::{Arrow, Diagram, Doing, Event, Kind, Lane, Row, Span, Thing};
use crate::out::Out;
use std::io::{self, Write};

// Sizes, in pixels.
const GUTTER: u64 = 64;
const LANE: u64 = 132;
const MARGIN: u64 = 280;
const HEAD: u64 = 76;
const HEADING: u64 = 54;
const ROW: u64 = 26;
const FOOT: u64 = 40;
/// After how many rows the lanes are headed again.
const ROWS_A_HEADING: u64 = 40;

/// The styles, the heads of arrows, and the legend.
const BEGINNING: &str = include_str!("sequence.svg");

/// Where the middle of a lane is. What has no lane stands at the left.
fn lane_x(lane: Option<usize>) -> u64 {
    lane.map_or(GUTTER, |lane| lane as u64 * LANE + GUTTER + LANE / 2)
}

/// Where a row is, or, without one, the top of all of them.
fn row_y(row: Option<u64>) -> u64 {
    row.map_or(HEAD + HEADING / 2, |row| HEAD + (row / ROWS_A_HEADING + 1) * HEADING + row * ROW + ROW / 2)
}

fn x_of(diagram: &Diagram, seat: u32) -> u64 {
    lane_x(diagram.lane_of(seat))
}

fn put_head(to: &mut Vec<u8>, diagram: &Diagram) -> io::Result<()> {
    let width = (lane_x(Some(diagram.lanes.len())) + MARGIN).max(620);
    let height = row_y(Some(diagram.rows)) + FOOT;
    let size = format!("width=\"{width}\" height=\"{height}\"");
    writeln!(to, "<svg xmlns=\"http://www.w3.org/2000/svg\" {size} viewBox=\"0 0 {width} {height}\">")?;
    let (styles, legend) = BEGINNING.split_once("<!-- ground -->\n").unwrap_or((BEGINNING, ""));
    write!(to, "{styles}<rect {size} fill=\"#ffffff\"/>\n{legend}")
}

/// Prints the grounds of lanes: those of a process have one colour.
fn put_grounds(to: &mut Vec<u8>, diagram: &Diagram) -> io::Result<()> {
    let height = row_y(Some(diagram.rows)) - HEAD;
    let (mut is_tinted, mut leader) = (false, None);
    for (at, lane) in diagram.lanes.iter().enumerate() {
        if leader != Some(lane.leader) {
            is_tinted = !is_tinted;
            leader = Some(lane.leader);
        }
        let x = lane_x(Some(at)) - LANE / 2;
        let colour = if is_tinted { "#eef3f9" } else { "#f7f5ef" };
        writeln!(to, "<rect x=\"{x}\" y=\"{HEAD}\" width=\"{LANE}\" height=\"{height}\" fill=\"{colour}\"/>")?;
    }
    Ok(())
}

/// Prints the life of a thread, with a cross where it ends before the diagram does.
fn put_life(to: &mut Vec<u8>, span: &Span, x: u64, end: u64, is_over: bool) -> io::Result<()> {
    let (start, text) = (row_y(span.from), span_words(span));
    writeln!(to, "<path class=\"life\" d=\"M{x} {start}V{end}\"><title>{text}</title></path>")?;
    if is_over {
        let (left, top) = (x - 6, end - 6);
        writeln!(to, "<path class=\"arrow\" stroke=\"#b3261e\" d=\"M{left} {top}l12 12m0 -12l-12 12\"/>")?;
    }
    Ok(())
}

/// Prints a bar along the time for which a thread is in a call. Calls within calls stand further to the right.
fn put_bar(to: &mut Vec<u8>, span: &Span, x: u64, end: u64) -> io::Result<()> {
    let (start, text) = (row_y(span.from), span_words(span));
    let height = end.saturating_sub(start).max(4);
    let (class, width) = if span.doing == Doing::Serves { ("serves", 10) } else { ("waits", 6) };
    let left = x + span.depth.saturating_sub(1).min(8) * 5 - width / 2;
    let size = format!("x=\"{left}\" y=\"{start}\" width=\"{width}\" height=\"{height}\"");
    writeln!(to, "<rect class=\"{class}\" {size}><title>{text}</title></rect>")
}

/// Prints the lives of threads, or the bars of calls: from the foot upwards, so that bars lie on those around them.
fn put_spans(out: &mut Out, diagram: &Diagram, are_lives: bool) -> io::Result<()> {
    let mut rows = diagram.rows;
    for thing in diagram.things.iter().rev() {
        let span = match thing {
            Thing::Row(_) => {
                rows -= 1;
                continue;
            }
            Thing::Ends(span) if (span.doing == Doing::Idle) == are_lives => span,
            _ => continue,
        };
        let (x, end) = (x_of(diagram, span.seat), row_y(Some(rows)));
        if are_lives {
            put_life(&mut out.held, span, x, end, rows < diagram.rows)?;
        } else {
            put_bar(&mut out.held, span, x, end)?;
        }
        out.pass()?;
    }
    Ok(())
}

/// The class of an arrow, and the mark of its head.
fn look_of(kind: Kind) -> (&'static str, &'static str) {
    match kind {
        Kind::Call { .. } => ("call", "hc"),
        Kind::OneWay { .. } => ("oneway", "ho"),
        Kind::Reply { .. } => ("reply", "hr"),
    }
}

/// The way of an arrow: to another lane, or out of its lane and back.
fn way((x, y): (u64, u64), (to_x, to_y): (u64, u64)) -> String {
    match x.cmp(&to_x) {
        std::cmp::Ordering::Equal => format!("M{x} {y}H{}V{to_y}H{}", x + 30, x + 6),
        std::cmp::Ordering::Less => format!("M{x} {y}L{} {to_y}", to_x - 6),
        std::cmp::Ordering::Greater => format!("M{x} {y}L{} {to_y}", to_x + 6),
    }
}

/// Prints an arrow, if it begins or ends in a row; with a ring at its end where nobody has read it.
fn put_arrow(to: &mut Vec<u8>, diagram: &Diagram, arrow: &Arrow) -> io::Result<()> {
    let (x, y) = (x_of(diagram, arrow.sender), row_y(arrow.sent));
    let (class, head) = look_of(arrow.kind);
    let (made, text) = (arrow.made, kind_words(arrow.kind));
    match (arrow.got, arrow.sent) {
        (Some(end), _) => {
            let way = way((x, y), (x_of(diagram, end.seat), row_y(Some(end.row))));
            let path = format!("<path class=\"arrow {class}\" d=\"{way}\" marker-end=\"url(#{head})\">");
            writeln!(to, "{path}<title>{made}: {text}</title></path>")
        }
        (None, Some(_)) => {
            let (end, ring) = (x + 34, x + 38);
            write!(to, "<g class=\"arrow {class}\"><title>{made}: {text}, unread</title><path d=\"M{x} {y}H{end}\"/>")?;
            writeln!(to, "<circle cx=\"{ring}\" cy=\"{y}\" r=\"4\" stroke-dasharray=\"none\"/></g>")
        }
        (None, None) => Ok(()),
    }
}

/// Whether a mark tells of an end or of something amiss.
fn is_amiss(event: Event) -> bool {
    use Event::*;
    !matches!(event, Sent(_) | Got(_) | Opened(_) | Attached(_) | ManagerSet | SpamSet(_))
}

/// Prints a row: its place, a dot on its lane, and what is said of it. Of what was read nothing is said: it stands at the end of its
/// arrow.
fn put_row(to: &mut Vec<u8>, diagram: &Diagram, row: &Row, rows: u64) -> io::Result<()> {
    let (x, y) = (x_of(diagram, row.seat), row_y(Some(rows)));
    writeln!(to, "<text class=\"place\" x=\"{}\" y=\"{}\">{}</text>", GUTTER - 10, y + 4, row.place)?;
    let is_amiss = is_amiss(row.event);
    let (beside, base) = match row.event {
        Event::Got(_) => return Ok(()),
        Event::Sent(index) if diagram.is_unread(index) => (x + 48, y + 4),
        _ => (x + 9, y - 4),
    };
    if !matches!(row.event, Event::Sent(_)) {
        let colour = if is_amiss { "#b3261e" } else { "#2c7a3f" };
        writeln!(to, "<circle cx=\"{x}\" cy=\"{y}\" r=\"4\" fill=\"{colour}\"/>")?;
    }
    let class = if is_amiss { "halo bad" } else { "halo" };
    writeln!(to, "<text class=\"{class}\" x=\"{beside}\" y=\"{base}\">{}</text>", row_words(diagram, row))
}

fn put_rows(out: &mut Out, diagram: &Diagram) -> io::Result<()> {
    let rows = diagram.things.iter().filter_map(|it| if let Thing::Row(row) = it { Some(row) } else { None });
    (0..).zip(rows).try_for_each(|(index, row)| {
        put_row(&mut out.held, diagram, row, index)?;
        out.pass()
    })
}

/// Prints the head of a lane.
fn put_lane(to: &mut Vec<u8>, at: usize, lane: &Lane, y: u64) -> io::Result<()> {
    let x = lane_x(Some(at));
    let pid = lane.pid.map_or("-".into(), |it| it.to_string());
    let name = lane.name.as_ref().map_or(String::new(), |it| format!("<title>{it}</title>"));
    let size = format!("x=\"{}\" y=\"{y}\" width=\"88\" height=\"42\" rx=\"4\"", x - 44);
    write!(to, "<rect {size} fill=\"#ffffff\" stroke=\"#8a96a3\"/>")?;
    write!(to, "<text class=\"pid\" x=\"{x}\" y=\"{}\">pid {pid}</text>", y + 17)?;
    writeln!(to, "<text class=\"head\" x=\"{x}\" y=\"{}\">seat {}{name}</text>", y + 35, lane.seat)
}

/// Prints the heads of the lanes, again and again.
fn put_headings(to: &mut Vec<u8>, diagram: &Diagram) -> io::Result<()> {
    for heading in 0..diagram.rows / ROWS_A_HEADING + 1 {
        let y = HEAD + heading * (HEADING + ROWS_A_HEADING * ROW) + 4;
        diagram.lanes.iter().enumerate().try_for_each(|(at, lane)| put_lane(to, at, lane, y))?;
    }
    Ok(())
}

pub fn put(out: &mut Out, diagram: &Diagram) -> io::Result<()> {
    put_head(&mut out.held, diagram)?;
    put_grounds(&mut out.held, diagram)?;
    put_spans(out, diagram, true)?;
    put_spans(out, diagram, false)?;
    for arrow in &diagram.arrows {
        put_arrow(&mut out.held, diagram, arrow)?;
        out.pass()?;
    }
    put_rows(out, diagram)?;
    put_headings(&mut out.held, diagram)?;
    writeln!(out.held, "</svg>")
}
