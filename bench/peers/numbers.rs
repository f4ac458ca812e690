// The peer of `fisca_bench numbers`: the same work in plain Rust, by the best known way. Words where operands fit;
// sums and products that spare greatest common divisors; divisors by halving; one buffer for a text.
//
// rustc -O bench/peers/numbers.rs; ./numbers OPERATION MIX COUNT
use std::cmp::Ordering;
use std::time::Instant;

const TABLE: u64 = 1024;
const LIMIT: u64 = i64::MAX as u64;

#[derive(Clone, Copy, Debug, PartialEq, Eq)]
pub enum NumFault {
    TooWide,
    ZeroDivisor,
    NotANumber,
}

#[derive(Clone, Copy, Debug, PartialEq, Eq, Hash)]
pub struct Fraction {
    pub numerator: i64,
    pub denominator: u64,
}

/// The greatest common divisor, by halving and differences.
fn gcd(a: u64, b: u64) -> u64 {
    if a == 0 {
        return b;
    }
    if b == 0 {
        return a;
    }
    let shift = (a | b).trailing_zeros();
    let mut x = a >> a.trailing_zeros();
    let mut y = b >> b.trailing_zeros();
    while x != y {
        let halvings = y.wrapping_sub(x).trailing_zeros();
        let less = x.min(y);
        y = x.abs_diff(y) >> halvings;
        x = less;
    }
    x << shift
}

fn gcd_wide(a: u128, b: u128) -> u128 {
    let (mut x, mut y) = (a, b);
    while y != 0 {
        if x >> 64 == 0 && y >> 64 == 0 {
            return gcd(x as u64, y as u64) as u128;
        }
        (x, y) = (y, x % y);
    }
    x
}

fn signed(negative: bool, size: u64) -> i64 {
    if negative { -(size as i64) } else { size as i64 }
}

/// Parts that are in lowest terms already.
fn checked(negative: bool, size: u128, denominator: u128) -> Result<Fraction, NumFault> {
    if size > LIMIT as u128 || denominator > LIMIT as u128 {
        return Err(NumFault::TooWide);
    }
    Ok(Fraction { numerator: signed(negative, size as u64), denominator: denominator as u64 })
}

fn reduce(negative: bool, size: u128, denominator: u128) -> Result<Fraction, NumFault> {
    if denominator == 0 {
        return Err(NumFault::ZeroDivisor);
    }
    let divisor = gcd_wide(size, denominator);
    checked(negative, size / divisor, denominator / divisor)
}

impl Fraction {
    pub fn new(numerator: i64, denominator: i64) -> Result<Fraction, NumFault> {
        reduce((numerator < 0) != (denominator < 0), numerator.unsigned_abs() as u128, denominator.unsigned_abs() as u128)
    }

    pub fn add(self, other: Fraction) -> Result<Fraction, NumFault> {
        if self.denominator == other.denominator {
            let sum = self.numerator as i128 + other.numerator as i128;
            if self.denominator == 1 {
                return checked(sum < 0, sum.unsigned_abs(), 1);
            }
            // Both are below 2^63, so the size of the sum is a word.
            let size = sum.unsigned_abs() as u64;
            let divisor = gcd(size, self.denominator);
            return checked(sum < 0, (size / divisor) as u128, (self.denominator / divisor) as u128);
        }
        let shared = gcd(self.denominator, other.denominator);
        let (left, right) = (self.denominator / shared, other.denominator / shared);
        let sum = self.numerator as i128 * right as i128 + other.numerator as i128 * left as i128;
        let size = sum.unsigned_abs();
        if shared == 1 {
            return checked(sum < 0, size, left as u128 * other.denominator as u128);
        }
        if size >> 64 == 0 {
            let divisor = gcd(size as u64, shared);
            return checked(sum < 0, (size as u64 / divisor) as u128, left as u128 * (other.denominator / divisor) as u128);
        }
        let divisor = gcd((size % shared as u128) as u64, shared);
        checked(sum < 0, size / divisor as u128, left as u128 * (other.denominator / divisor) as u128)
    }

    pub fn mul(self, other: Fraction) -> Result<Fraction, NumFault> {
        let negative = (self.numerator < 0) != (other.numerator < 0);
        let (a, c) = (self.numerator.unsigned_abs(), other.numerator.unsigned_abs());
        let (b, d) = (self.denominator, other.denominator);
        let over = if d == 1 { 1 } else { gcd(a, d) };
        let under = if b == 1 { 1 } else { gcd(c, b) };
        if over == 1 && under == 1 {
            return checked(negative, a as u128 * c as u128, b as u128 * d as u128);
        }
        checked(negative, (a / over) as u128 * (c / under) as u128, (b / under) as u128 * (d / over) as u128)
    }

    /// Appends the text to a line.
    fn write_text(self, line: &mut String) {
        let mut buffer = [0u8; 84];
        let size = self.numerator.unsigned_abs();
        let mut start = buffer.len();
        match places(self.denominator) {
            Some(count) => {
                let whole;
                if count == 0 {
                    whole = size;
                } else {
                    whole = size / self.denominator;
                    let rest = size % self.denominator;
                    start -= count;
                    if count <= 19 {
                        put_places(&mut buffer, rest * (10u64.pow(count as u32) / self.denominator), count);
                    } else {
                        put_division(&mut buffer[start..], rest, self.denominator);
                    }
                    start -= 1;
                    buffer[start] = b'.';
                }
                start = put_number(&mut buffer, start, whole);
            }
            None => {
                start = put_number(&mut buffer, start, self.denominator);
                start -= 1;
                buffer[start] = b'/';
                start = put_number(&mut buffer, start, size);
            }
        }
        if self.numerator < 0 {
            start -= 1;
            buffer[start] = b'-';
        }
        line.push_str(unsafe { std::str::from_utf8_unchecked(&buffer[start..]) });
    }

    pub fn from_decimal(text: &str) -> Result<Fraction, NumFault> {
        let bytes = text.as_bytes();
        let negative = bytes.first() == Some(&b'-');
        let bytes = match bytes {
            [b'-' | b'+', rest @ ..] => rest,
            _ => bytes,
        };
        if bytes.len() > 19 {
            return long_decimal(negative, bytes);
        }
        // At most 19 digits: their number is a word, and at most 18 of them are places.
        let mut number = 0u64;
        let mut digit = false;
        let mut any = false;
        let mut point = bytes.len();
        for (index, byte) in bytes.iter().enumerate() {
            let value = byte.wrapping_sub(b'0');
            if value < 10 {
                number = 10 * number + value as u64;
                digit = true;
                any = true;
            } else if *byte == b'.' && point == bytes.len() && (digit || index == 0) {
                point = index;
                digit = false;
            } else if *byte == b'_' && digit {
                digit = false;
            } else {
                return Err(NumFault::NotANumber);
            }
        }
        let ends_well = digit || point + 1 == bytes.len();
        if !any || !ends_well || (point > 1 && bytes[0] == b'0') {
            return Err(NumFault::NotANumber);
        }
        let places = bytes[point.min(bytes.len())..].iter().filter(|byte| byte.is_ascii_digit()).count();
        if places == 0 {
            return checked(negative, number as u128, 1);
        }
        if number == 0 {
            return checked(false, 0, 1);
        }
        // A power of ten has no other divisors than twos and fives.
        let twos = number.trailing_zeros().min(places as u32);
        let mut left = number >> twos;
        let mut under = 10u64.pow(places as u32) >> twos;
        while left % 5 == 0 && under % 5 == 0 {
            left /= 5;
            under /= 5;
        }
        checked(negative, left as u128, under as u128)
    }
}

/// A literal of any length.
#[cold]
fn long_decimal(negative: bool, bytes: &[u8]) -> Result<Fraction, NumFault> {
    let point = bytes.iter().position(|byte| *byte == b'.').unwrap_or(bytes.len());
    let places = &bytes[(point + 1).min(bytes.len())..];
    let (mut whole, mut digit) = (0u64, point == 0);
    for byte in &bytes[..point] {
        if byte.is_ascii_digit() {
            digit = true;
            whole = whole.saturating_mul(10).saturating_add((byte - b'0') as u64);
        } else if digit && *byte == b'_' {
            digit = false;
        } else {
            return Err(NumFault::NotANumber);
        }
    }
    if !digit || (point > 1 && bytes[0] == b'0') || (point == 0 && places.is_empty()) {
        return Err(NumFault::NotANumber);
    }
    let (mut number, mut count, mut few, mut digit) = (0u64, 0u32, true, places.is_empty());
    for byte in places {
        if byte.is_ascii_digit() {
            digit = true;
            if count < 18 {
                number = 10 * number + (byte - b'0') as u64;
                count += 1;
            } else if *byte != b'0' {
                few = false;
            }
        } else if digit && *byte == b'_' {
            digit = false;
        } else {
            return Err(NumFault::NotANumber);
        }
    }
    if !digit {
        return Err(NumFault::NotANumber);
    }
    if !few || whole > LIMIT {
        return Err(NumFault::TooWide);
    }
    let denominator = 10u128.pow(count);
    reduce(negative, whole as u128 * denominator + number as u128, denominator)
}

impl Ord for Fraction {
    fn cmp(&self, other: &Fraction) -> Ordering {
        if self.denominator == other.denominator {
            return self.numerator.cmp(&other.numerator);
        }
        if (self.numerator < 0) != (other.numerator < 0) {
            return self.numerator.cmp(&other.numerator);
        }
        let left = self.numerator as i128 * other.denominator as i128;
        let right = other.numerator as i128 * self.denominator as i128;
        left.cmp(&right)
    }
}

impl PartialOrd for Fraction {
    fn partial_cmp(&self, other: &Fraction) -> Option<Ordering> {
        Some(self.cmp(other))
    }
}

/// How many places a fraction over this denominator has as a decimal.
fn places(denominator: u64) -> Option<usize> {
    let twos = denominator.trailing_zeros();
    let mut rest = denominator >> twos;
    let mut fives = 0;
    while rest % 5 == 0 {
        rest /= 5;
        fives += 1;
    }
    if rest == 1 { Some(twos.max(fives) as usize) } else { None }
}

/// Writes the digits before `end`, two at a time.
fn put_number(buffer: &mut [u8; 84], end: usize, number: u64) -> usize {
    let mut rest = number;
    let mut start = end;
    while rest >= 100 {
        let pair = (rest % 100) as u8;
        rest /= 100;
        buffer[start - 1] = b'0' + pair % 10;
        buffer[start - 2] = b'0' + pair / 10;
        start -= 2;
    }
    if rest >= 10 {
        start -= 1;
        buffer[start] = b'0' + (rest % 10) as u8;
        rest /= 10;
    }
    start -= 1;
    buffer[start] = b'0' + rest as u8;
    start
}

/// Writes the last `count` digits at the end.
fn put_places(buffer: &mut [u8; 84], number: u64, count: usize) {
    let mut rest = number;
    let mut start = buffer.len();
    for _ in 0..count {
        start -= 1;
        buffer[start] = b'0' + (rest % 10) as u8;
        rest /= 10;
    }
}

fn put_division(buffer: &mut [u8], rest: u64, denominator: u64) {
    let mut left = rest as u128;
    for byte in buffer {
        left *= 10;
        *byte = b'0' + (left / denominator as u128) as u8;
        left %= denominator as u128;
    }
}

#[derive(Clone, Copy)]
enum Mix {
    Whole,
    Hundredths,
    Unlike,
}

fn next(state: u64) -> u64 {
    let mut x = state;
    x ^= x << 13;
    x ^= x >> 7;
    x ^= x << 17;
    x
}

fn operand(mix: Mix, high: u64, low: u64) -> Fraction {
    let (numerator, denominator) = match mix {
        Mix::Whole => ((high % 2_000_001) as i64 - 1_000_000, 1),
        Mix::Hundredths => ((high % 200_000_001) as i64 - 100_000_000, 100),
        Mix::Unlike => ((high % 2_000_001) as i64 - 1_000_000, (low % 1_000_000) as i64 + 1),
    };
    Fraction::new(numerator, denominator).unwrap_or(Fraction { numerator: 0, denominator: 1 })
}

fn pairs_of(mix: Mix) -> Vec<(Fraction, Fraction)> {
    let mut pairs = Vec::with_capacity(TABLE as usize);
    let mut state = 88_172_645_463_325_252u64;
    for _ in 0..TABLE {
        let a = next(state);
        let b = next(a);
        let c = next(b);
        state = next(c);
        pairs.push((operand(mix, a, b), operand(mix, c, state)));
    }
    pairs
}

fn texts_of(mix: Mix) -> Vec<String> {
    let mut texts = Vec::with_capacity(TABLE as usize);
    let mut state = 88_172_645_463_325_252u64;
    for _ in 0..TABLE {
        let a = next(state);
        state = next(a);
        let whole = (a % 2_000_001) as i64 - 1_000_000;
        let hundredths = state % 100;
        let millionths = state % 1_000_000;
        texts.push(match mix {
            Mix::Whole => format!("{whole}"),
            Mix::Hundredths => format!("{whole}.{hundredths:02}"),
            Mix::Unlike => format!("{whole}.{millionths:06}"),
        });
    }
    texts
}

fn mixed(checksum: u64, number: Fraction) -> u64 {
    let size = number.numerator.unsigned_abs();
    let sign = u64::from(number.numerator < 0);
    checksum.rotate_left(5) ^ size.wrapping_add(number.denominator) ^ sign
}

fn main() {
    let words: Vec<String> = std::env::args().skip(1).collect();
    let mix = match words[1].as_str() {
        "whole" => Mix::Whole,
        "hundredths" => Mix::Hundredths,
        _ => Mix::Unlike,
    };
    let rounds = words[2].parse::<u64>().unwrap() / TABLE;
    let pairs = pairs_of(mix);
    let texts = texts_of(mix);
    let mut line = String::new();
    let start = Instant::now();
    let mut checksum = 0u64;
    for _ in 0..rounds {
        match words[0].as_str() {
            "add" => {
                for (left, right) in &pairs {
                    if let Ok(sum) = left.add(*right) {
                        checksum = mixed(checksum, sum);
                    }
                }
            }
            "mul" => {
                for (left, right) in &pairs {
                    if let Ok(product) = left.mul(*right) {
                        checksum = mixed(checksum, product);
                    }
                }
            }
            "cmp" => {
                for (left, right) in &pairs {
                    checksum = checksum.rotate_left(1) ^ u64::from(left < right);
                }
            }
            "text" => {
                for (left, _) in &pairs {
                    line.clear();
                    left.write_text(&mut line);
                    let last = line.as_bytes().last().copied().unwrap_or(0);
                    checksum = checksum.rotate_left(5) ^ line.len() as u64 ^ u64::from(last);
                }
            }
            _ => {
                for text in &texts {
                    if let Ok(number) = Fraction::from_decimal(text) {
                        checksum = mixed(checksum, number);
                    }
                }
            }
        }
    }
    println!("{} {}", start.elapsed().as_nanos(), checksum);
}
