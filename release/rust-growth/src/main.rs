//! Runs each call of both crates over n, 2n and 4n items, and over k, 2k and 4k, and prints a table of what it costs an item:
//!
//!     rust-growth          the table, and on standard error each figure that grows by more than its class; then the status is 1
//!     rust-growth calls    the names of the calls that have a row
//!
//! It counts instructions where callgrind runs it, and CALLGRIND_FILE names the file that callgrind writes.
mod callgrind;
mod counting;
mod input;
mod iterator;
mod itertools;
mod probes;
mod rows;

use counting::{figures_of, BYTES, DRAWS, FIGURES, HEADS, HELD, INSTRUCTIONS};
use input::{Input, Shape, Way};
use rows::{Growth, Held, Row};

/// The least number of items, and the least k. Each is doubled twice.
const N: u64 = 1024;
const K: u64 = 16;

/// The figures that grow by more than their class, and are known to: the call, the shape, and the figure.
const KNOWN: &[(&str, Shape, usize)] = &[];

/// The figures that do so in some runs: by where a long text lies, the allocator copies it where it grows, or not.
const VARYING: &[(&str, Shape, usize)] = &[("join", Shape::Long, INSTRUCTIONS)];

/// What a figure may grow by besides.
const SLACK: f64 = 1.15;

type Figures = [i64; FIGURES];

fn all_rows() -> impl Iterator<Item = &'static Row> {
    let parts = [
        itertools::ADAPTERS,
        itertools::CONSUMERS,
        iterator::ADAPTERS,
        iterator::CONSUMERS,
        iterator::SOURCES,
    ];
    parts.into_iter().flatten()
}

/// The figures of a row over an input, of each the greater by a fold and by `next`.
fn figures(row: &Row, input: Input) -> Figures {
    let fold = figures_of(|| (row.run)(input, Way::Fold));
    let next = figures_of(|| (row.run)(input, Way::Next));
    std::array::from_fn(|figure| fold[figure].max(next[figure]))
}

/// By how much a figure of an item grows while a number grows from one to another, in a class.
fn allowed(growth: Growth, from: u64, to: u64) -> f64 {
    match growth {
        Growth::Flat => 1.0,
        Growth::Log => (to as f64).log2() / (from as f64).log2(),
        Growth::Linear => to as f64 / from as f64,
    }
}

/// What a figure may have at once for each of so many items, whatever is drawn.
fn at_once(figure: usize, items: u64) -> f64 {
    let each = match figure {
        INSTRUCTIONS => 500,
        BYTES | HELD => 128,
        _ => 4,
    };
    (items * each) as f64
}

/// How a row's figures grow over a shape.
struct Measured {
    shape: Shape,
    by_n: [Figures; 3],
    by_k: [Figures; 3],
}

impl Measured {
    fn of(row: &Row, shape: Shape) -> Measured {
        let over = |n, k| figures(row, Input { shape, n, k });
        Measured {
            shape,
            by_n: [over(N, K), over(2 * N, K), over(4 * N, K)],
            by_k: [over(4 * N, K), over(4 * N, 2 * K), over(4 * N, 4 * K)],
        }
    }

    /// By how much a figure of an item grows to the step's number, from its first. What may be at once doesn't count.
    fn grown(&self, figure: usize, step: usize) -> [f64; 2] {
        let times = (1_u64 << step) as f64;
        let [by_n, by_k] = [&self.by_n, &self.by_k].map(|it| [it[0][figure], it[step][figure]]);
        let beyond = |[_, to]: [i64; 2], free: f64| (to as f64 - free).max(0.0);
        let slack = at_once(figure, K);
        [
            beyond(by_n, slack) / (by_n[0].max(1) as f64 * times),
            beyond(by_k, slack * times) / by_k[0].max(1) as f64,
        ]
    }

    /// A line for each figure that grows by more than its class.
    fn above(&self, row: &Row) -> Vec<(usize, String)> {
        let mut above = Vec::new();
        for figure in 0..FIGURES {
            for (step, which) in [(1, 0), (2, 0), (1, 1), (2, 1)] {
                let from = [N, K][which];
                let to = from << step;
                let grown = self.grown(figure, step)[which];
                let held = row.held.over(self.shape);
                let growth = match (figure, held, which) {
                    (HELD, Held::K, 1) => Growth::Linear,
                    (HELD, ..) => Growth::Flat,
                    _ => row.growth[which],
                };
                // What is held is no figure of an item. Of all items it grows with n.
                let grown = if figure == HELD && which == 0 && held != Held::All {
                    grown * (to / from) as f64
                } else {
                    grown
                };
                if grown > SLACK * allowed(growth, from, to) {
                    above.push((figure, said(row, self, figure, which, step, grown)));
                }
            }
        }
        above
    }

    /// The instructions of an item.
    fn instructions(&self) -> i64 {
        self.by_n[2][INSTRUCTIONS] / (4 * N) as i64
    }

    /// The cells of its line after its shape and its instructions.
    fn cells(&self, row: &Row) -> Vec<String> {
        let n = (4 * N) as f64;
        let mut cells: Vec<String> =
            (DRAWS..HELD).map(|figure| shown(self.by_n[2][figure] as f64 / n)).collect();
        let held = self.by_n[2][HELD].max(0);
        cells.push(if held == 0 { String::new() } else { held.to_string() });
        for which in 0..2 {
            let most = (0..HELD).map(|figure| self.grown(figure, 2)[which]).fold(0.0, f64::max);
            cells.push(if most > SLACK { format!("{most:.1}") } else { String::new() });
        }
        cells.push(class(row, self.shape));
        cells
    }
}

/// A line that says what grows.
fn said(row: &Row, it: &Measured, figure: usize, which: usize, step: usize, grown: f64) -> String {
    let figures = [it.by_n, it.by_k][which].map(|figures| figures[figure]);
    format!(
        "{}, {}: {} {} at {} times {}, {:.2} times an item's, and its class is {}: {figures:?}",
        row.call,
        it.shape.name(),
        HEADS[figure].to_lowercase(),
        figures[step],
        1 << step,
        ["n", "k"][which],
        grown,
        class(row, it.shape),
    )
}

fn shown(figure: f64) -> String {
    if figure < 0.05 {
        return String::new();
    }
    let text = if figure < 10.0 { format!("{figure:.1}") } else { format!("{figure:.0}") };
    text.strip_suffix(".0").unwrap_or(&text).to_string()
}

/// A row's classes: of what an item costs, and of what is held.
fn class(row: &Row, shape: Shape) -> String {
    let cost = match row.growth {
        [Growth::Log, _] => "log n",
        [_, Growth::Log] => "log k",
        [_, Growth::Linear] => "k",
        _ => "flat",
    };
    let held = match row.held.over(shape) {
        Held::K => "; holds k",
        Held::All => "; holds all",
        _ => "",
    };
    format!("{cost}{held}")
}

/// A call's name, and what is said besides, from a comma on.
fn named(call: &str) -> (&str, &str) {
    call.split_at(call.find(',').unwrap_or(call.len()))
}

/// A line of the table, but for its calls.
struct Line {
    shapes: Vec<&'static str>,
    /// The least and the most instructions.
    instructions: [i64; 2],
    cells: String,
}

impl Line {
    fn same(&self, other: &Line) -> bool {
        self.shapes == other.shapes && self.cells == other.cells
    }

    fn widen(&mut self, other: [i64; 2]) {
        let [least, most] = self.instructions;
        self.instructions = [least.min(other[0]), most.max(other[1])];
    }

    fn print(&self, calls: &str) {
        let [least, most] = self.instructions;
        let instructions =
            if least == most { least.to_string() } else { format!("{least} to {most}") };
        println!("| {calls} | {} | {instructions} | {} |", self.shapes.join(", "), self.cells);
    }
}

/// A row's lines. Shapes with the same figures but for instructions share one.
fn lines(row: &Row, measured: &[Measured]) -> Vec<Line> {
    let mut lines: Vec<Line> = Vec::new();
    for it in measured {
        let mut cells = it.cells(row).join(" | ");
        if known(row, it.shape).next().is_some() {
            cells.push_str(", and it is above");
        }
        let instructions = [it.instructions(); 2];
        match lines.iter_mut().find(|line| line.cells == cells) {
            Some(line) => {
                line.shapes.push(it.shape.name());
                line.widen(instructions);
            }
            None => lines.push(Line { shapes: vec![it.shape.name()], instructions, cells }),
        }
    }
    lines
}

/// The figures of a row over a shape that are known to grow by more than its class.
fn known(row: &Row, shape: Shape) -> impl Iterator<Item = usize> {
    let call = row.call;
    KNOWN.iter().filter(move |(of, over, _)| *of == call && *over == shape).map(|it| it.2)
}

/// Tells of each figure that grows by more than its class, and of each known one that doesn't. Whether there is one.
fn told_of(row: &Row, it: &Measured) -> bool {
    let above = it.above(row);
    let mut failed = false;
    for (figure, line) in &above {
        let known = known(row, it.shape).any(|known| known == *figure)
            || VARYING.contains(&(row.call, it.shape, *figure));
        eprintln!("{}{line}", if known { "known: " } else { "" });
        failed |= !known;
    }
    for figure in known(row, it.shape) {
        if !above.iter().any(|(found, _)| *found == figure) {
            eprintln!(
                "{}, {}: {} is in its class, and KNOWN has it",
                row.call,
                it.shape.name(),
                HEADS[figure]
            );
            failed = true;
        }
    }
    failed
}

/// Puts a row's lines to those of calls with the same, or behind them all.
fn share(shared: &mut Vec<(Vec<String>, Vec<Line>)>, row: &Row, lines: Vec<Line>) {
    let (name, how) = named(row.call);
    let call = format!("`{name}`{how}");
    let same = |others: &[Line]| {
        others.len() == lines.len() && others.iter().zip(&lines).all(|(x, y)| x.same(y))
    };
    match shared.iter_mut().find(|(_, others)| same(others)) {
        Some((calls, others)) => {
            calls.push(call);
            others.iter_mut().zip(lines).for_each(|(x, y)| x.widen(y.instructions));
        }
        None => shared.push((vec![call], lines)),
    }
}

fn main() {
    if std::env::args().nth(1).as_deref() == Some("calls") {
        all_rows().for_each(|row| println!("{}", named(row.call).0));
        return;
    }
    let mut failed = false;
    for probe in probes::PROBES {
        if Measured::of(probe, probe.shapes[0]).above(probe).is_empty() {
            eprintln!("{}: not found", probe.call);
            failed = true;
        }
    }
    let mut shared = Vec::new();
    for row in all_rows() {
        let measured: Vec<Measured> =
            row.shapes.iter().map(|shape| Measured::of(row, *shape)).collect();
        for it in &measured {
            failed |= told_of(row, it);
        }
        share(&mut shared, row, lines(row, &measured));
    }
    println!("| Call | Shape | {} | By 4n | By 4k | Class |", HEADS.join(" | "));
    println!("|---{}|", "|---".repeat(FIGURES + 4));
    for (calls, lines) in shared {
        for line in lines {
            line.print(&calls.join(", "));
        }
    }
    std::process::exit(i32::from(failed));
}
