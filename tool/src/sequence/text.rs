// SPDX-License-Identifier: Apache-2.0 OR MIT
//! A diagram for a terminal, in ASCII.
use super::labels::row_words;
use super::model::{Diagram, Doing, Event, Kind, Lane, Row, Sitter, Thing};
use crate::out::Out;
use std::io::{self, Write};
use std::iter::Peekable;

/// After how many rows the lanes are headed again.
const ROWS_A_HEADING: u64 = 40;
const LEGEND: &str = "| thread   : waits   # serves   --> call   - > one-way   ==> reply   --? unread";
const BLANK: &str = "           ";
/// How much of a name there is room for.
const NAME: usize = 11;

/// A line from lane to lane.
#[derive(Clone, Copy)]
struct Line {
    from: usize,
    to: usize,
    kind: Kind,
}

impl Line {
    /// Whether it lies over the lane.
    fn is_over(&self, lane: usize) -> bool {
        self.from.min(self.to) < lane && lane < self.from.max(self.to)
    }

    /// Its piece in the gap to the right of a lane.
    fn piece(&self, lane: usize) -> &'static str {
        if lane < self.from.min(self.to) || self.from.max(self.to) <= lane {
            return BLANK;
        }
        let is_head_right = self.from < self.to && lane + 1 == self.to;
        let is_head_left = self.to < self.from && lane == self.to;
        let [left, right, between] = match self.kind {
            Kind::Call { .. } => ["<----------", "---------->", "-----------"],
            Kind::OneWay { .. } => ["< - - - - -", "- - - - - >", "- - - - - -"],
            Kind::Reply { .. } => ["<==========", "==========>", "==========="],
        };
        match (is_head_left, is_head_right) {
            (true, _) => left,
            (_, true) => right,
            _ => between,
        }
    }
}

/// How a thread that is doing this looks.
fn sign_of(doing: Doing) -> char {
    match doing {
        Doing::Gone => ' ',
        Doing::Idle => '|',
        Doing::Waits => ':',
        Doing::Serves => '#',
    }
}

/// The mark of a row on its own lane, if the row has one beside what the thread is doing.
fn mark_of(event: Event) -> Option<char> {
    match event {
        Event::Sent(_) => Some('o'),
        Event::Got(_) => None,
        Event::Opened(_) | Event::Attached(_) => Some('+'),
        Event::ManagerSet => Some('M'),
        Event::SpamSet(_) => Some('S'),
        Event::Death(_) => Some('D'),
        Event::DeadReply | Event::FailedReply | Event::SpamSuspect => Some('!'),
        Event::ThreadExit | Event::ProcessExit => Some('X'),
        Event::Refused(_) => Some('x'),
    }
}

/// The line of a row: what is handed out comes from its sender.
fn line_of(diagram: &Diagram, row: &Row) -> Option<Line> {
    let arrow = match row.event {
        Event::Got(index) => &diagram.arrows[index],
        _ => return None,
    };
    Some(Line { from: diagram.lane_of(arrow.sender)?, to: diagram.lane_of(row.seat)?, kind: arrow.kind })
}

/// Prints a row: its place, the lanes, and what is said of it.
fn put_row(to: &mut Vec<u8>, diagram: &Diagram, doings: &[Doing], row: &Row) -> io::Result<()> {
    let own = diagram.lane_of(row.seat);
    let line = line_of(diagram, row);
    let is_unread = matches!(row.event, Event::Sent(index) if diagram.is_unread(index));
    write!(to, "{:>6}     ", row.place)?;
    for (lane, doing) in doings.iter().enumerate() {
        let is_crossed = *doing == Doing::Gone && line.map_or(false, |it| it.is_over(lane));
        let sign = if is_crossed { '-' } else { sign_of(*doing) };
        let sign = mark_of(row.event).filter(|_| own == Some(lane)).unwrap_or(sign);
        let gap = match line {
            Some(line) => line.piece(lane),
            None if is_unread && own == Some(lane) => "--?        ",
            None => BLANK,
        };
        write!(to, "{sign}{gap}")?;
    }
    writeln!(to, "{}", row_words(diagram, row))
}

/// Prints whose the lanes are.
fn put_lanes(to: &mut Vec<u8>, lanes: &[Lane]) -> io::Result<()> {
    let mut put = |word: &str, of: &dyn Fn(&Lane) -> String| {
        write!(to, "{word:>6}")?;
        lanes.iter().try_for_each(|it| write!(to, "{:^12}", of(it)))?;
        writeln!(to)
    };
    put("pid", &|it| it.pid.map_or("-".into(), |it| it.to_string()))?;
    put("seat", &|it| it.seat.to_string())?;
    if lanes.iter().any(|it| it.name.is_some()) {
        put("name", &|it| it.name.iter().flat_map(|it| it.chars()).take(NAME).collect())?;
    }
    Ok(())
}

/// Has the lanes be those of whoever sits there by this row, which are still to come.
fn seat<'a>(lanes: &mut [Lane], sitters: &mut Peekable<impl Iterator<Item = &'a Sitter>>, row: u64) {
    while let Some(it) = sitters.next_if(|it| it.row <= row) {
        if let Some(lane) = lanes.iter_mut().find(|lane| lane.seat == it.seat) {
            (lane.pid, lane.name) = (Some(it.pid), it.name.clone());
        }
    }
}

/// Prints a diagram as lines.
pub fn put(out: &mut Out, diagram: &Diagram) -> io::Result<()> {
    let mut doings = vec![Doing::Gone; diagram.lanes.len()];
    let (mut lanes, mut sitters) = (diagram.lanes.clone(), diagram.sitters.iter().peekable());
    let mut rows = 0;
    writeln!(out.held, "{LEGEND}")?;
    for thing in &diagram.things {
        out.pass()?;
        let (seat, doing) = match thing {
            Thing::Begins(span) => (span.seat, span.doing),
            Thing::Ends(span) => (span.seat, span.outer),
            Thing::Row(row) => {
                if rows > 0 && rows % ROWS_A_HEADING == 0 {
                    seat(&mut lanes, &mut sitters, rows);
                }
                if rows % ROWS_A_HEADING == 0 {
                    put_lanes(&mut out.held, &lanes)?;
                }
                put_row(&mut out.held, diagram, &doings, row)?;
                rows += 1;
                continue;
            }
        };
        if let Some(lane) = diagram.lane_of(seat) {
            doings[lane] = doing;
        }
    }
    Ok(())
}
