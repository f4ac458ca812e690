// What the peers that write lines share, by `include!`: numbers read from texts, the values of axes, and the texts of
// numbers.

/// Thousandths of a decimal text with at most three places.
#[allow(dead_code)]
fn thousandths(text: &str) -> i64 {
    let (sign, text) = match text.strip_prefix('-') {
        Some(rest) => (-1, rest),
        None => (1, text),
    };
    let (whole, places) = text.split_once('.').unwrap_or((text, ""));
    let whole: i64 = whole.parse().unwrap();
    let mut value = whole;
    for k in 0..3 {
        value = value * 10 + places.as_bytes().get(k).map_or(0, |b| i64::from(b - b'0'));
    }
    sign * value
}

fn gcd(mut a: u64, mut b: u64) -> u64 {
    if a == 0 || b == 0 {
        return a | b;
    }
    let shift = (a | b).trailing_zeros();
    a >>= a.trailing_zeros();
    loop {
        b >>= b.trailing_zeros();
        if a > b {
            std::mem::swap(&mut a, &mut b);
        }
        b -= a;
        if b == 0 {
            return a << shift;
        }
    }
}

/// An axis: its value at a step is (first + step * rise) / scale.
struct Axis {
    first: i64,
    rise: i64,
    scale: i64,
}

impl Axis {
    /// So many values from one number of thousandths to another.
    fn new(min: i64, max: i64, count: i64) -> Axis {
        let steps = (count - 1).max(1);
        let (first, rise, scale) = (min * steps, max - min, 1000 * steps);
        let common = gcd(gcd(first.unsigned_abs(), rise.unsigned_abs()), scale as u64) as i64;
        Axis { first: first / common, rise: rise / common, scale: scale / common }
    }

    /// Whether the value at a step is at least a number of thousandths.
    #[allow(dead_code)]
    fn is_at_least(&self, step: i64, bound: i64) -> bool {
        i128::from(self.first + step * self.rise) * 1000 >= i128::from(bound) * i128::from(self.scale)
    }

    /// The value at a step, in lowest terms.
    fn value(&self, step: i64) -> (i64, u64) {
        let value = self.first + step * self.rise;
        if self.scale == 1 {
            return (value, 1);
        }
        let common = gcd(value.unsigned_abs(), self.scale as u64);
        let size = (value.unsigned_abs() / common) as i64;
        (if value < 0 { -size } else { size }, self.scale as u64 / common)
    }
}

/// The digits of a number, at the end of a buffer.
fn digits(mut n: u64, buffer: &mut [u8; 24]) -> usize {
    let mut at = buffer.len();
    loop {
        at -= 1;
        buffer[at] = b'0' + (n % 10) as u8;
        n /= 10;
        if n == 0 {
            return at;
        }
    }
}

/// Appends the digits of a number.
fn push_whole(line: &mut Vec<u8>, n: u64) {
    let mut buffer = [0; 24];
    let at = digits(n, &mut buffer);
    line.extend_from_slice(&buffer[at..]);
}

/// How many places a denominator needs, if it divides a power of ten.
fn places(d: u64) -> Option<u32> {
    let twos = d.trailing_zeros();
    let mut rest = d >> twos;
    let mut fives = 0;
    while rest % 5 == 0 {
        rest /= 5;
        fives += 1;
    }
    (rest == 1).then_some(twos.max(fives))
}

/// Appends the text of a number in lowest terms.
fn push_number(line: &mut Vec<u8>, (numerator, d): (i64, u64)) {
    let n = numerator.unsigned_abs();
    if numerator < 0 {
        line.push(b'-');
    }
    if d == 1 {
        return push_whole(line, n);
    }
    match places(d) {
        Some(count) => {
            push_whole(line, n / d);
            line.push(b'.');
            let mut rest = n % d;
            for _ in 0..count {
                let tens = u128::from(rest) * 10;
                line.push(b'0' + (tens / u128::from(d)) as u8);
                rest = (tens % u128::from(d)) as u64;
            }
        }
        None => {
            push_whole(line, n);
            line.push(b'/');
            push_whole(line, d);
        }
    }
}
