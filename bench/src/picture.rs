// SPDX-License-Identifier: Apache-2.0 OR MIT
//! The picture of cost against size: a panel for each thing that grows, both axes logarithmic.
use crate::growth::KINDS;
use crate::table::{Row, Table, Whose, whole};
use std::fmt::Write;

const WIDTH: f64 = 520.0;
const HEIGHT: f64 = 380.0;
/// Room for the numbers at the left and below, and for the titles and names above.
const LEFT: f64 = 64.0;
const BELOW: f64 = 34.0;
const ABOVE: f64 = 112.0;
const RIGHT: f64 = 32.0;
const COLOURS: [&str; 5] = ["#1b6ca8", "#c4472b", "#2a8c4a", "#8a4fa3", "#b07d12"];

/// Powers of ten about all values of an axis.
#[derive(Clone, Copy)]
struct Axis {
    first: i32,
    last: i32,
}

impl Axis {
    fn about(values: impl Iterator<Item = f64> + Clone) -> Axis {
        let least = values.clone().fold(f64::INFINITY, f64::min).log10().floor() as i32;
        let most = values.fold(1.0, f64::max).log10().ceil() as i32;
        Axis { first: least, last: most.max(least + 1) }
    }

    /// Where a value stands, from 0 to 1.
    fn place(self, value: f64) -> f64 {
        (value.log10() - f64::from(self.first)) / f64::from(self.last - self.first)
    }

    fn ticks(self) -> impl Iterator<Item = f64> {
        (self.first..=self.last).map(|power| 10f64.powi(power))
    }
}

/// The points of a body: its sizes and medians.
fn points(rows: &[&Row], whose: Whose) -> Vec<(f64, f64)> {
    let point = |row: &&Row| Some((f64::from(row.key.n?), row.spread(whose)?.median));
    rows.iter().filter_map(point).collect()
}

/// The rows of a body, for each body of a kind.
fn bodies<'a>(table: &'a Table, kind: &str) -> Vec<Vec<&'a Row>> {
    let mut found: Vec<Vec<&Row>> = Vec::new();
    for row in table.rows.iter().filter(|row| row.key.kind == Some(kind)) {
        match found.iter_mut().find(|rows| rows[0].key.name == row.key.name) {
            Some(rows) => rows.push(row),
            None => found.push(vec![row]),
        }
    }
    found
}

/// A panel, whose corner is at (x, y).
struct Panel {
    x: f64,
    y: f64,
    sizes: Axis,
    costs: Axis,
}

impl Panel {
    fn at(&self, (size, cost): (f64, f64)) -> (f64, f64) {
        let (width, height) = (WIDTH - LEFT - RIGHT, HEIGHT - ABOVE - BELOW);
        (self.x + LEFT + width * self.sizes.place(size), self.y + HEIGHT - BELOW - height * self.costs.place(cost))
    }

    fn grid(&self, out: &mut String) {
        let (x, y) = (self.x, self.y);
        for size in self.sizes.ticks() {
            let (at, _) = self.at((size, 1.0));
            let (top, bottom) = (y + ABOVE, y + HEIGHT - BELOW);
            _ = writeln!(out, r#"<path class="grid" d="M{at:.1} {top:.1}V{bottom:.1}"/>"#);
            _ = writeln!(
                out,
                r#"<text x="{at:.1}" y="{:.1}" text-anchor="middle">{}</text>"#,
                bottom + 18.0,
                whole(size)
            );
        }
        for cost in self.costs.ticks() {
            let (_, at) = self.at((1.0, cost));
            let (left, right) = (x + LEFT, x + WIDTH - RIGHT);
            _ = writeln!(out, r#"<path class="grid" d="M{left:.1} {at:.1}H{right:.1}"/>"#);
            _ = writeln!(
                out,
                r#"<text x="{:.1}" y="{:.1}" text-anchor="end">{}</text>"#,
                left - 6.0,
                at + 4.0,
                whole(cost)
            );
        }
    }

    fn line(&self, points: &[(f64, f64)], colour: &str, dashed: bool, out: &mut String) {
        let places =
            points.iter().map(|point| self.at(*point)).map(|(x, y)| format!("{x:.1},{y:.1}")).collect::<Vec<_>>();
        let dash = if dashed { r#" stroke-dasharray="5 4""# } else { "" };
        _ = writeln!(out, r#"<polyline points="{}" stroke="{colour}"{dash}/>"#, places.join(" "));
        for (x, y) in points.iter().map(|point| self.at(*point)) {
            _ = writeln!(out, r#"<circle cx="{x:.1}" cy="{y:.1}" r="3" fill="{colour}"/>"#);
        }
    }
}

fn panel(table: &Table, kind: &str, x: f64, y: f64, out: &mut String) {
    let bodies = bodies(table, kind);
    let lines = bodies.iter().map(|rows| (points(rows, Whose::Ours), points(rows, Whose::Beside))).collect::<Vec<_>>();
    let all = lines.iter().flat_map(|(ours, theirs)| ours.iter().chain(theirs));
    if all.clone().next().is_none() {
        return;
    }
    let panel = Panel { x, y, sizes: Axis::about(all.clone().map(|it| it.0)), costs: Axis::about(all.map(|it| it.1)) };
    panel.grid(out);
    for (index, ((ours, theirs), rows)) in lines.iter().zip(&bodies).enumerate() {
        let colour = COLOURS[index % COLOURS.len()];
        panel.line(ours, colour, false, out);
        panel.line(theirs, colour, true, out);
        let (x, y) = (x + LEFT, y + 18.0 + 18.0 * index as f64);
        _ = writeln!(out, r#"<text x="{x:.1}" y="{y:.1}" fill="{colour}">{}</text>"#, rows[0].key.name);
    }
}

/// The picture as SVG.
pub fn drawn(table: &Table, caption: &str) -> String {
    let (width, height) = (2.0 * WIDTH, 2.0 * HEIGHT + 36.0);
    let mut out = format!(
        r#"<svg xmlns="http://www.w3.org/2000/svg" viewBox="0 0 {width} {height}"
font-family="sans-serif" font-size="13">
<style>polyline {{ fill: none; stroke-width: 2 }} .grid {{ stroke: #ddd }}</style>
<rect width="100%" height="100%" fill="white"/>
<text x="{LEFT}" y="24" font-size="15">{caption}</text>
"#
    );
    for (index, kind) in KINDS.iter().enumerate() {
        let (x, y) = (WIDTH * (index % 2) as f64, 36.0 + HEIGHT * (index / 2) as f64);
        panel(table, kind.journal, x, y, &mut out);
    }
    out + "</svg>\n"
}
