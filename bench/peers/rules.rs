//! The peer of `fisca run` over one axis of rents, as one would write it by hand: the allowance of
//! `tests/rules/household` is code, and so is the date of its parameter. The same lines, exact, through one buffer.
//! What stands over from `fisca` is that rents and allowances are exact fractions of two words.
//!
//! rustc -O bench/peers/rules.rs; ./rules COUNT BOUND [--from POSITION]: the rents 0 to COUNT - 1 where the allowance
//! is at least BOUND
#[allow(dead_code)]
mod params;

use params::{Fraction, NumFault};
use std::env;
use std::io::{self, BufWriter, Write};

include!("lines.rs");

/// A month by its year and its number.
type Month = (u16, u8);

/// The share of a rent that is paid, by law since January 1980.
fn share(month: Month) -> Option<Fraction> {
    (month >= (1980, 1)).then_some(Fraction { numerator: 1, denominator: 4 })
}

/// The allowance on a rent, paid up to November 2016. None where the law names no share.
fn housing_allowance(rent: Fraction, month: Month) -> Option<Result<Fraction, NumFault>> {
    if month > (2016, 11) || month < (1980, 1) {
        return Some(Ok(Fraction::ZERO));
    }
    Some(rent.mul(share(month)?))
}

fn main() -> io::Result<()> {
    let words: Vec<String> = env::args().collect();
    let number = |word: &String| word.parse::<i64>().map_err(io::Error::other);
    let (count, bound) = (number(&words[1])?, number(&words[2])?);
    let from = words.get(4).map_or(Ok(0), number)?;
    let (axis, bound) = (Axis::new(0, 1000 * (count - 1), count), Fraction { numerator: bound, denominator: 1 });
    let month = (2016, 11);
    let mut out = BufWriter::with_capacity(1 << 16, io::stdout().lock());
    let mut line = Vec::with_capacity(128);
    for position in from..count {
        let (numerator, denominator) = axis.value(position);
        let allowance = match housing_allowance(Fraction { numerator, denominator }, month) {
            Some(Ok(allowance)) => allowance,
            _ => panic!("position {position}: no allowance"),
        };
        if allowance < bound {
            continue;
        }
        line.clear();
        push_whole(&mut line, position as u64);
        for (numerator, denominator) in [(numerator, denominator), (allowance.numerator, allowance.denominator)] {
            line.push(b'\t');
            push_number(&mut line, (numerator, denominator));
        }
        line.push(b'\n');
        out.write_all(&line)?;
    }
    out.write_all(b"end\n")?;
    out.flush()
}
