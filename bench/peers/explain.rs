//! The peer of `fisca explain`: writes the lines for readers, or with the word `jsonl` as objects of JSON, from what stands in their cells, as a
//! program does that has them at hand: numbers, months and days as numbers, and texts as texts.
//!
//! Standard input has a line for each line, its fifteen cells with tabs between them, and `1` behind them where the value is a JSON number or
//! truth. Writes the lines to standard output, and the nanoseconds that this takes, without reading the cells, to standard error.
use std::fmt::Write as _;
use std::io::{Read, Write};
use std::time::Instant;

/// What stands in a cell.
enum Cell<'a> {
    /// A text.
    Text(&'a str),
    /// A whole number.
    Whole(i64),
    /// A number with decimal places: its digits, and how many of them are places.
    Decimal(i64, usize),
    /// A month.
    Month(u16, u8),
    /// A day.
    Day(u16, u8, u8),
}

impl<'a> Cell<'a> {
    /// What a text says.
    fn read(text: &'a str) -> Cell<'a> {
        Cell::date(text).or_else(|| Cell::number(text)).unwrap_or(Cell::Text(text))
    }

    /// A month or a day.
    fn date(text: &str) -> Option<Cell<'a>> {
        let pieces: Vec<&str> = text.split('-').collect();
        match *pieces {
            [year, month] if year.len() == 4 => Some(Cell::Month(year.parse().ok()?, month.parse().ok()?)),
            [year, month, day] if year.len() == 4 => Some(Cell::Day(year.parse().ok()?, month.parse().ok()?, day.parse().ok()?)),
            _ => None,
        }
    }

    /// A number.
    fn number(text: &str) -> Option<Cell<'a>> {
        match text.split_once('.') {
            Some((whole, places)) => Some(Cell::Decimal(format!("{whole}{places}").parse().ok()?, places.len())),
            None => Some(Cell::Whole(text.parse().ok()?)),
        }
    }

    /// Appends it.
    fn write(&self, line: &mut String) {
        match *self {
            Cell::Text(text) => line.push_str(text),
            Cell::Whole(number) => write!(line, "{number}").unwrap(),
            Cell::Decimal(digits, places) => {
                let unit = 10_i64.pow(places as u32);
                let sign = if digits < 0 { "-" } else { "" };
                write!(line, "{sign}{}.{:0places$}", digits.abs() / unit, digits.abs() % unit).unwrap();
            }
            Cell::Month(year, month) => write!(line, "{year:04}-{month:02}").unwrap(),
            Cell::Day(year, month, day) => write!(line, "{year:04}-{month:02}-{day:02}").unwrap(),
        }
    }

    /// Whether nothing stands there.
    fn is_empty(&self) -> bool {
        matches!(self, Cell::Text(""))
    }

    /// Whether it is this text.
    fn is(&self, text: &str) -> bool {
        matches!(self, Cell::Text(it) if *it == text)
    }
}

/// What a value comes from, for readers.
fn phrase<'a>(source: &Cell<'a>) -> &'a str {
    match *source {
        Cell::Text("unfit") => "no value at this period",
        Cell::Text("given" | "shared") => "input",
        Cell::Text("beside") => "default beside inputs of others",
        Cell::Text("parameter") => "in force",
        Cell::Text("scale") => "by its brackets",
        Cell::Text(other) => other,
        _ => panic!("no source"),
    }
}

/// What is in a cell behind what stands before it, where there is something.
fn behind(line: &mut String, before: &str, cell: &Cell) {
    if !cell.is_empty() {
        line.push_str(before);
        cell.write(line);
    }
}

/// The line of these cells.
fn write(line: &mut String, cells: &[Cell]) {
    let [depth, kind, name, member, period, base, value, fault, source, since, file, number, unit, label, reference, _] = cells else {
        panic!("{} cells", cells.len())
    };
    let Cell::Whole(depth) = *depth else { panic!("no depth") };
    for _ in 0..depth {
        line.push_str("  ");
    }
    let is_key = kind.is("key");
    if !is_key {
        kind.write(line);
        line.push(' ');
    }
    name.write(line);
    if !label.is_empty() {
        behind(line, " (", label);
        line.push(')');
    }
    behind(line, " ", member);
    behind(line, if is_key { " " } else { " on " }, period);
    behind(line, " of ", base);
    if fault.is_empty() {
        behind(line, " = ", value);
        behind(line, " ", unit);
    } else {
        behind(line, " has no value, ", fault);
    }
    line.push_str(": ");
    line.push_str(phrase(source));
    if !matches!(since, Cell::Day(1, 1, 1)) {
        behind(line, if source.is("shared") { " of " } else { " since " }, since);
    }
    if !number.is_empty() {
        behind(line, ", ", file);
        line.push_str(if file.is_empty() { ", line " } else { ":" });
        number.write(line);
    }
    behind(line, ", ", reference);
    line.push('\n');
}

/// The names of the cells.
const NAMES: [&str; 15] = [
    "depth", "kind", "name", "member", "period", "base", "value", "fault", "source", "since", "file", "line", "unit", "label", "reference",
];

/// A text in quotes.
fn quoted(line: &mut String, text: &str) {
    line.push('"');
    for c in text.chars() {
        match c {
            '"' | '\\' => line.extend(['\\', c]),
            c => line.push(c),
        }
    }
    line.push('"');
}

/// A cell in quotes.
fn quoted_cell(line: &mut String, cell: &Cell) {
    if let Cell::Text(text) = cell {
        return quoted(line, text);
    }
    line.push('"');
    cell.write(line);
    line.push('"');
}

/// The object of these cells.
fn write_object(line: &mut String, cells: &[Cell]) {
    let value_is_bare = matches!(cells[15], Cell::Whole(1));
    for (place, (name, cell)) in NAMES.iter().zip(cells).enumerate() {
        line.push(if place == 0 { '{' } else { ',' });
        quoted(line, name);
        line.push(':');
        let is_bare = match *name {
            "depth" => true,
            "line" => !cell.is_empty(),
            "value" => value_is_bare,
            _ => false,
        };
        if is_bare { cell.write(line) } else { quoted_cell(line, cell) }
    }
    line.push_str("}\n");
}

fn main() {
    let write = if std::env::args().nth(1).is_some_and(|word| word == "jsonl") { write_object } else { write };
    let mut text = String::new();
    std::io::stdin().read_to_string(&mut text).unwrap();
    let lines: Vec<Vec<Cell>> = text.lines().map(|line| line.split('\t').map(Cell::read).collect()).collect();
    let mut out = std::io::BufWriter::with_capacity(1 << 16, std::io::stdout().lock());
    let start = Instant::now();
    let mut line = String::new();
    for cells in &lines {
        line.clear();
        write(&mut line, cells);
        out.write_all(line.as_bytes()).unwrap();
    }
    out.flush().unwrap();
    eprintln!("{}", start.elapsed().as_nanos());
}
