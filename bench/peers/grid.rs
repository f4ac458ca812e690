//! The peer of `fisca axes` with several axes in plain Rust: its words are those of the program, conditions
//! `NAME>=BOUND` alone. The places of the axes turn as an odometer, and each value is worked out at each position,
//! exact. With FISCA_PEER=texts the text of each value of each axis is made before the first line, and copied.
use std::env;
use std::io::{self, BufWriter, Write};

include!("lines.rs");

/// An axis of a grid, and where it stands.
struct Turning {
    axis: Axis,
    count: i64,
    place: i64,
    /// The texts of its values, each behind a tab, where they are made beforehand.
    texts: Vec<Vec<u8>>,
}

/// What the words ask for.
struct Task {
    axes: Vec<Turning>,
    /// The axis of the condition, and its bound in thousandths.
    keep: Option<(usize, i64)>,
    from: u64,
    rows: Option<u64>,
}

impl Turning {
    /// The axis of a word NAME=MIN..MAX/COUNT.
    fn of(word: &str, texts: bool) -> Turning {
        let (_, values) = word.split_once('=').unwrap();
        let (min, rest) = values.split_once("..").unwrap();
        let (max, count) = rest.rsplit_once('/').unwrap();
        let count: i64 = count.parse().unwrap();
        let axis = Axis::new(thousandths(min), thousandths(max), count);
        let text = |place| {
            let mut text = vec![b'\t'];
            push_number(&mut text, axis.value(place));
            text
        };
        let texts = if texts { (0..count).map(text).collect() } else { Vec::new() };
        Turning { axis, count, place: 0, texts }
    }
}

fn task_of(words: &[String]) -> Task {
    let kept_texts = env::var_os("FISCA_PEER").is_some_and(|peer| peer == "texts");
    let mut task = Task { axes: Vec::new(), keep: None, from: 0, rows: None };
    let (mut names, mut condition) = (Vec::new(), None);
    let mut rest = words.iter();
    while let Some(word) = rest.next() {
        match word.as_str() {
            "axes" => {}
            "--keep" => condition = rest.next().and_then(|text| text.split_once(">=")),
            "--from" => task.from = rest.next().unwrap().parse().unwrap(),
            "--rows" => task.rows = rest.next().map(|text| text.parse().unwrap()),
            axis => {
                names.push(axis.split('=').next().unwrap());
                task.axes.push(Turning::of(axis, kept_texts));
            }
        }
    }
    task.keep = condition.map(|(name, bound)| (names.iter().position(|other| *other == name).unwrap(), thousandths(bound)));
    task
}

fn main() -> io::Result<()> {
    let words: Vec<String> = env::args().skip(1).collect();
    let Task { mut axes, keep, from, rows } = task_of(&words);
    let mut size = 1;
    for turning in &mut axes {
        turning.place = (from / size % turning.count as u64) as i64;
        size *= turning.count as u64;
    }
    let mut out = BufWriter::with_capacity(1 << 16, io::stdout().lock());
    let mut line = Vec::with_capacity(512);
    let mut left = rows.unwrap_or(u64::MAX);
    let mut position = from;
    while position < size && left > 0 {
        if keep.is_none_or(|(axis, bound)| axes[axis].axis.is_at_least(axes[axis].place, bound)) {
            line.clear();
            push_whole(&mut line, position);
            for turning in &axes {
                match turning.texts.get(turning.place as usize) {
                    Some(text) => line.extend_from_slice(text),
                    None => {
                        line.push(b'\t');
                        push_number(&mut line, turning.axis.value(turning.place));
                    }
                }
            }
            line.push(b'\n');
            out.write_all(&line)?;
            left -= 1;
        }
        position += 1;
        for turning in &mut axes {
            turning.place += 1;
            if turning.place < turning.count {
                break;
            }
            turning.place = 0;
        }
    }
    match position < size {
        true => writeln!(out, "more {position}")?,
        false => out.write_all(b"end\n")?,
    }
    out.flush()
}
