// SPDX-License-Identifier: Apache-2.0 OR MIT
//! What was measured, and the table of it.
use std::fmt;

/// Whose figures they are.
#[derive(Clone, Copy, Debug, PartialEq, Eq)]
pub enum Whose {
    Ours,
    /// The engine beside, asked as ours is.
    Beside,
    /// The engine beside, asked with steps that were made ahead.
    BesideBySteps,
    /// The engine beside, whose threads take turns.
    BesideByTicket,
}

/// A workload, at a size where it has one.
#[derive(Clone, Debug, PartialEq, Eq)]
pub struct Key {
    /// What grows, of a workload that does.
    pub kind: Option<&'static str>,
    pub name: String,
    pub n: Option<u32>,
}

impl Key {
    pub fn plain(name: impl Into<String>) -> Key {
        Key { kind: None, name: name.into(), n: None }
    }
}

/// The figures of a workload.
pub struct Row {
    pub key: Key,
    figures: [Vec<f64>; 4],
}

/// A median, and how far the figures lie apart.
#[derive(Clone, Copy)]
pub struct Spread {
    pub median: f64,
    pub least: f64,
    pub most: f64,
}

impl Row {
    /// None where nothing was measured.
    pub fn spread(&self, whose: Whose) -> Option<Spread> {
        let mut sorted = self.figures[whose as usize].clone();
        sorted.sort_by(f64::total_cmp);
        let (least, most) = (*sorted.first()?, *sorted.last()?);
        Some(Spread { median: sorted[sorted.len() / 2], least, most })
    }
}

/// Rows in the order in which they were first measured.
#[derive(Default)]
pub struct Table {
    pub rows: Vec<Row>,
}

impl Table {
    pub fn add(&mut self, key: Key, whose: Whose, figure: f64) {
        let at = self.rows.iter().position(|row| row.key == key).unwrap_or_else(|| {
            self.rows.push(Row { key, figures: Default::default() });
            self.rows.len() - 1
        });
        self.rows[at].figures[whose as usize].push(figure);
    }
}

/// A number with a digit behind the point where it is small.
pub fn number(value: f64) -> String {
    if value < 10.0 { format!("{value:.1}") } else { whole(value) }
}

/// A whole number, with commas.
pub fn whole(value: f64) -> String {
    let digits = format!("{value:.0}");
    let parts = digits.as_bytes().rchunks(3).rev().map(String::from_utf8_lossy).collect::<Vec<_>>();
    parts.join(",")
}

fn per_second(nanoseconds: f64) -> String {
    match 1e9 / nanoseconds {
        rate if rate >= 1e6 => format!("{:.2} M", rate / 1e6),
        rate => format!("{:.0} k", rate / 1e3),
    }
}

/// The table as Markdown; `beside` says whether it has columns of the engine beside.
pub struct Shown<'a> {
    pub table: &'a Table,
    pub beside: bool,
    /// What a figure is: "ns a step".
    pub unit: &'a str,
    pub rates: bool,
}

impl fmt::Display for Shown<'_> {
    fn fmt(&self, f: &mut fmt::Formatter<'_>) -> fmt::Result {
        let mut columns = vec!["Workload", "n", self.unit, "least", "most"];
        columns.extend(self.rates.then_some("steps/s"));
        if self.beside {
            columns.extend(["beside", "least", "most", "ratio"]);
            columns.extend(self.rates.then_some(["beside, by steps", "beside, by ticket"]).into_iter().flatten());
        }
        writeln!(f, "| {} |", columns.join(" | "))?;
        writeln!(f, "|{}", " --- |".repeat(columns.len()))?;
        for row in &self.table.rows {
            writeln!(f, "| {} |", self.cells(row).join(" | "))?;
        }
        Ok(())
    }
}

impl Shown<'_> {
    fn cells(&self, row: &Row) -> Vec<String> {
        let mut cells = vec![row.key.name.clone(), row.key.n.map_or_else(String::new, |n| whole(n.into()))];
        let spread = |whose| row.spread(whose).map(|it| [it.median, it.least, it.most]);
        let told = |found: Option<[f64; 3]>| found.map_or([const { String::new() }; 3], |it| it.map(number));
        let median = |whose| row.spread(whose).map(|it| it.median);
        cells.extend(told(spread(Whose::Ours)));
        cells.extend(self.rates.then(|| median(Whose::Ours).map_or_else(String::new, per_second)));
        if self.beside {
            cells.extend(told(spread(Whose::Beside)));
            let ratio = median(Whose::Ours).zip(median(Whose::Beside)).map(|(ours, theirs)| ours / theirs);
            cells.push(ratio.map_or_else(String::new, |ratio| format!("{ratio:.1}")));
            for whose in [Whose::BesideBySteps, Whose::BesideByTicket] {
                cells.extend(self.rates.then(|| median(whose).map_or_else(String::new, number)));
            }
        }
        cells
    }
}
