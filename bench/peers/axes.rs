//! The peer of `fisca axes` in plain Rust: the values of one axis, exact, one line a position, written through one
//! buffer. Its words are MIN MAX COUNT and perhaps a lower bound that values must meet; all whole numbers or
//! hundredths.
use std::env;
use std::io::{self, BufWriter, Write};

include!("lines.rs");

fn main() -> io::Result<()> {
    let words: Vec<String> = env::args().collect();
    let count: i64 = words[3].parse().unwrap();
    let axis = Axis::new(thousandths(&words[1]), thousandths(&words[2]), count);
    let keep = words.get(4).map(|word| thousandths(word));
    let mut out = BufWriter::with_capacity(1 << 16, io::stdout().lock());
    let mut line = Vec::with_capacity(128);
    for i in 0..count {
        if keep.is_some_and(|bound| !axis.is_at_least(i, bound)) {
            continue;
        }
        line.clear();
        push_whole(&mut line, i as u64);
        line.push(b'\t');
        push_number(&mut line, axis.value(i));
        line.push(b'\n');
        out.write_all(&line)?;
    }
    out.write_all(b"end\n")?;
    out.flush()
}
