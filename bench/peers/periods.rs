// The peer of `fisca_bench periods`: the same work in plain Rust, over the same representation of a period.
//
// rustc -O bench/peers/periods.rs; ./periods OPERATION COUNT
use std::hash::{Hash, Hasher};
use std::time::Instant;

const TABLE: u64 = 1024;
const FIRST_MONTH: u32 = 12;
const END_MONTH: u32 = 120_000;
const FIRST_DAY: u32 = 3_652_791;
const END_DAY: u32 = 7_304_850;
const LARGEST_SIZE: u32 = 1_200;
const TOO_LARGE: u32 = 10_000;

#[derive(Clone, Copy, Debug, PartialEq, Eq, PartialOrd, Ord, Hash)]
pub enum Unit {
    Day,
    Month,
    Year,
    Eternity,
}

#[derive(Clone, Copy, Debug, PartialEq, Eq)]
pub enum TimeFault {
    BadText,
    OutOfRange,
    NoSubperiods,
}

/// The unit above the start above the size.
#[derive(Clone, Copy, Debug, PartialEq, Eq, PartialOrd, Ord, Hash)]
pub struct Period {
    key: u64,
}

#[derive(Clone, Copy)]
pub struct Day {
    pub year: u16,
    pub month: u8,
    pub day: u8,
}

fn is_leap_year(year: u32) -> bool {
    year % 4 == 0 && (year % 100 != 0 || year % 400 == 0)
}

fn days_in_month(year: u32, month: u32) -> u32 {
    match month {
        2 => if is_leap_year(year) { 29 } else { 28 },
        4 | 6 | 9 | 11 => 30,
        _ => 31,
    }
}

impl Day {
    fn new(year: u32, month: u32, day: u32) -> Option<Day> {
        if year < 1 || year > 9999 || month < 1 || month > 12 || day < 1 || day > days_in_month(year, month) {
            return None;
        }
        Some(Day { year: year as u16, month: month as u8, day: day as u8 })
    }

    fn first_of(month: u32) -> Day {
        Day { year: (month / 12) as u16, month: (month % 12 + 1) as u8, day: 1 }
    }

    /// The days since -10000-01-01, by the algorithm of Neri and Schneider.
    fn number(self) -> u32 {
        let (mut year, mut month) = (u32::from(self.year) + 10_000, u32::from(self.month));
        if month <= 2 {
            year -= 1;
            month += 12;
        }
        let century = year / 100;
        1461 * year / 4 - century + century / 4 + (979 * month - 2919) / 32 + u32::from(self.day) - 1 + 60
    }

    fn of_number(number: u32) -> Day {
        let scaled = 4 * (number - 60) + 3;
        let century = scaled / 146_097;
        let in_century = scaled % 146_097 / 4 * 4 + 3;
        let (year, day_of_year) = (100 * century + in_century / 1461, in_century % 1461 / 4);
        let scaled = 5 * day_of_year + 461;
        let (month, day) = (scaled / 153, (scaled % 153 / 5 + 1) as u8);
        if month > 12 {
            Day { year: (year + 1 - 10_000) as u16, month: (month - 12) as u8, day }
        } else {
            Day { year: (year - 10_000) as u16, month: month as u8, day }
        }
    }

    fn month_number(self) -> u32 {
        12 * u32::from(self.year) + u32::from(self.month) - 1
    }
}

struct Form {
    unit: Unit,
    year: u32,
    month: u32,
    day: u32,
    size: u32,
}

fn months_in(unit: Unit) -> u8 {
    match unit {
        Unit::Month => 1,
        Unit::Year => 12,
        Unit::Day | Unit::Eternity => 0,
    }
}

fn number_of(text: &[u8]) -> Option<u32> {
    let mut number = 0;
    for byte in text {
        if !byte.is_ascii_digit() {
            return None;
        }
        number = (10 * number + u32::from(*byte - b'0')).min(TOO_LARGE);
    }
    Some(number)
}

fn numeral(count: usize, text: &str) -> Option<u32> {
    if text.len() == count { number_of(text.as_bytes()) } else { None }
}

fn short_numeral(text: &str) -> Option<u32> {
    numeral(1, text).or(numeral(2, text))
}

fn written_start(text: &str) -> Option<Form> {
    let Some((year, rest)) = text.split_once('-') else {
        return Some(Form { unit: Unit::Year, year: numeral(4, text)?, month: 1, day: 1, size: 1 });
    };
    let year = numeral(4, year)?;
    let Some((month, day)) = rest.split_once('-') else {
        return Some(Form { unit: Unit::Month, year, month: short_numeral(rest)?, day: 1, size: 1 });
    };
    Some(Form { unit: Unit::Day, year, month: short_numeral(month)?, day: short_numeral(day)?, size: 1 })
}

fn named_unit(word: &str) -> Option<Unit> {
    match word {
        "year" => Some(Unit::Year),
        "month" => Some(Unit::Month),
        "day" => Some(Unit::Day),
        _ => None,
    }
}

fn under_unit(unit: Unit, start: Form) -> Option<Form> {
    match unit {
        Unit::Year if start.unit != Unit::Day => Some(Form { unit, ..start }),
        Unit::Month | Unit::Day if start.unit == unit => Some(start),
        _ => None,
    }
}

fn written_size(text: &str) -> Option<u32> {
    if text.is_empty() { None } else { number_of(text.as_bytes()) }
}

fn written_period(text: &str) -> Option<Form> {
    let Some((word, rest)) = text.split_once(':') else {
        return written_start(text);
    };
    let unit = named_unit(word)?;
    let Some((start, size)) = rest.split_once(':') else {
        return under_unit(unit, written_start(rest)?);
    };
    let form = under_unit(unit, written_start(start)?)?;
    let size = written_size(size)?;
    Some(Form { size, ..form })
}

impl Period {
    pub const ETERNITY: Period = Period { key: 3 << 48 };

    fn of(unit: Unit, first: u32, size: u16) -> Period {
        Period { key: (unit as u64) << 48 | u64::from(first) << 16 | u64::from(size) }
    }

    pub fn unit(self) -> Unit {
        match self.key >> 48 {
            0 => Unit::Day,
            1 => Unit::Month,
            2 => Unit::Year,
            _ => Unit::Eternity,
        }
    }

    fn first(self) -> u32 {
        (self.key >> 16) as u32
    }

    pub fn size(self) -> u16 {
        self.key as u16
    }

    pub fn read(text: &str) -> Result<Period, TimeFault> {
        if text == "ETERNITY" || text == "eternity" {
            return Ok(Period::ETERNITY);
        }
        let form = written_period(text).ok_or(TimeFault::BadText)?;
        let start = Day::new(form.year, form.month, form.day).ok_or(TimeFault::OutOfRange)?;
        if form.size < 1 || form.size > LARGEST_SIZE {
            return Err(TimeFault::OutOfRange);
        }
        let size = form.size as u16;
        if form.unit == Unit::Day {
            Period::from_day(size, i128::from(start.number()))
        } else {
            Period::from_month(form.unit, size, i128::from(start.month_number()))
        }
    }

    pub fn text(self) -> String {
        if self.unit() == Unit::Day {
            let Day { year, month, day } = Day::of_number(self.first());
            return match self.size() {
                1 => format!("{year:04}-{month:02}-{day:02}"),
                size => format!("day:{year:04}-{month:02}-{day:02}:{size}"),
            };
        }
        let (year, month, size) = (self.first() / 12, self.first() % 12 + 1, self.size());
        match (self.unit(), month, size) {
            (Unit::Day | Unit::Eternity, ..) => String::from("ETERNITY"),
            (Unit::Month, _, 1) => format!("{year:04}-{month:02}"),
            (Unit::Month, ..) => format!("month:{year:04}-{month:02}:{size}"),
            (Unit::Year, 1, 1) => format!("{year:04}"),
            (Unit::Year, 1, _) => format!("year:{year:04}:{size}"),
            (Unit::Year, _, 1) => format!("year:{year:04}-{month:02}"),
            (Unit::Year, ..) => format!("year:{year:04}-{month:02}:{size}"),
        }
    }

    pub fn start(self) -> Option<Day> {
        match self.unit() {
            Unit::Day => Some(Day::of_number(self.first())),
            Unit::Month | Unit::Year => Some(Day::first_of(self.first())),
            Unit::Eternity => None,
        }
    }

    pub fn start_day(self) -> u32 {
        match self.unit() {
            Unit::Day => self.first(),
            Unit::Month | Unit::Year => month_start(self.first()),
            Unit::Eternity => 0,
        }
    }

    fn stop_day(self) -> u32 {
        match self.unit() {
            Unit::Day => self.first() + u32::from(self.size()),
            Unit::Month | Unit::Year => month_start(self.first() + self.month_count()),
            Unit::Eternity => 0,
        }
    }

    fn overlaps(self, other: &Period) -> bool {
        if self.unit() == Unit::Eternity || other.unit() == Unit::Eternity {
            return true;
        }
        if self.unit() == Unit::Day || other.unit() == Unit::Day {
            return self.start_day() < other.stop_day() && other.start_day() < self.stop_day();
        }
        self.first() < other.first() + other.month_count() && other.first() < self.first() + self.month_count()
    }

    fn month_count(self) -> u32 {
        u32::from(months_in(self.unit())) * u32::from(self.size())
    }

    pub fn months(self) -> Option<u32> {
        match self.unit() {
            Unit::Day | Unit::Eternity => None,
            _ => Some(self.month_count()),
        }
    }

    pub fn sub_count(self, unit: Unit) -> Result<u32, TimeFault> {
        match (unit, self.unit()) {
            (Unit::Day, Unit::Day | Unit::Month | Unit::Year) => Ok(self.stop_day() - self.start_day()),
            (Unit::Month, Unit::Month | Unit::Year) => Ok(self.month_count()),
            (Unit::Year, Unit::Year) => Ok(u32::from(self.size())),
            _ => Err(TimeFault::NoSubperiods),
        }
    }

    pub fn sub(self, unit: Unit, i: u32) -> Period {
        match unit {
            Unit::Day => Period::of(unit, self.start_day() + i, 1),
            Unit::Month => Period::of(unit, self.first() + i, 1),
            _ => Period::of(Unit::Year, 12 * (self.first() / 12 + i), 1),
        }
    }

    pub fn this_year(self) -> Result<Period, TimeFault> {
        if self.unit() == Unit::Eternity {
            return Err(TimeFault::OutOfRange);
        }
        Ok(Period::of(Unit::Year, 12 * (self.first() / 12), 1))
    }

    pub fn first_month(self) -> Result<Period, TimeFault> {
        if self.unit() == Unit::Eternity {
            return Err(TimeFault::OutOfRange);
        }
        Ok(Period::of(Unit::Month, self.first(), 1))
    }

    fn last_3_months(self) -> Result<Period, TimeFault> {
        if self.unit() == Unit::Eternity {
            return Err(TimeFault::OutOfRange);
        }
        Period::from_month(Unit::Month, 3, i128::from(self.first()) - 3)
    }

    pub fn offset(self, k: i64) -> Result<Period, TimeFault> {
        self.offset_by(k, self.unit())
    }

    pub fn offset_by(self, k: i64, unit: Unit) -> Result<Period, TimeFault> {
        if self.unit() == Unit::Eternity || unit == Unit::Eternity {
            return Err(TimeFault::OutOfRange);
        }
        let moved = i128::from(k) * i128::from(months_in(unit));
        match (self.unit(), unit) {
            (Unit::Day, Unit::Day) => Period::from_day(self.size(), i128::from(self.first()) + i128::from(k)),
            (Unit::Day, _) => {
                let start = Day::of_number(self.first());
                let month = i128::from(start.month_number()) + moved;
                if month < i128::from(FIRST_MONTH) || month >= i128::from(END_MONTH) {
                    return Err(TimeFault::OutOfRange);
                }
                let (year, month) = (month as u32 / 12, month as u32 % 12 + 1);
                let day = u32::from(start.day).min(days_in_month(year, month));
                let start = Day { year: year as u16, month: month as u8, day: day as u8 };
                Period::from_day(self.size(), i128::from(start.number()))
            }
            (_, Unit::Day) => Err(TimeFault::OutOfRange),
            _ => Period::from_month(self.unit(), self.size(), i128::from(self.first()) + moved),
        }
    }

    fn from_day(size: u16, first: i128) -> Result<Period, TimeFault> {
        if first < i128::from(FIRST_DAY) || first > i128::from(END_DAY - u32::from(size)) {
            return Err(TimeFault::OutOfRange);
        }
        Ok(Period::of(Unit::Day, first as u32, size))
    }

    fn from_month(unit: Unit, size: u16, first: i128) -> Result<Period, TimeFault> {
        let months = u32::from(months_in(unit)) * u32::from(size);
        if first < i128::from(FIRST_MONTH) || first > i128::from(END_MONTH - months) {
            return Err(TimeFault::OutOfRange);
        }
        Ok(Period::of(unit, first as u32, size))
    }
}

fn month_start(month: u32) -> u32 {
    if month == END_MONTH { END_DAY } else { Day::first_of(month).number() }
}

/// The hasher of Rattle's maps.
pub struct FoldHasher {
    pub state: u64,
}

fn folded_multiply(a: u64, b: u64) -> u64 {
    let product = u128::from(a) * u128::from(b);
    product as u64 ^ (product >> 64) as u64
}

impl Hasher for FoldHasher {
    fn finish(&self) -> u64 {
        self.state
    }

    fn write(&mut self, bytes: &[u8]) {
        let len = bytes.len();
        let short = if len >= 4 {
            let front = u32::from_le_bytes([bytes[0], bytes[1], bytes[2], bytes[3]]);
            let back = u32::from_le_bytes([bytes[len - 4], bytes[len - 3], bytes[len - 2], bytes[len - 1]]);
            u64::from(front) | u64::from(back) << 32
        } else if len > 0 {
            u64::from(bytes[0]) | u64::from(bytes[len / 2]) << 8 | u64::from(bytes[len - 1]) << 16
        } else {
            0
        };
        self.state = folded_multiply(self.state ^ short, 0x9e37_79b9_7f4a_7c15 ^ (2 * len as u64));
    }
}

fn next(state: u64) -> u64 {
    let mut x = state;
    x ^= x << 13;
    x ^= x >> 7;
    x ^= x << 17;
    x
}

fn texts_of() -> Vec<String> {
    let mut texts = Vec::new();
    let mut state = 88_172_645_463_325_252u64;
    for _ in 0..TABLE {
        let a = next(state);
        state = next(a);
        let year = 1900 + a % 200;
        let month = 1 + state % 12;
        let size = 2 + state % 30;
        texts.push(match a % 8 {
            0 => format!("{year}"),
            1 => format!("year:{year}-{month:02}"),
            2 => format!("month:{year}-{month:02}:{size}"),
            3 => format!("year:{year}:{size}"),
            _ => format!("{year}-{month:02}"),
        });
    }
    texts
}

fn day_texts_of() -> Vec<String> {
    let mut texts = Vec::new();
    let mut state = 88_172_645_463_325_252u64;
    for _ in 0..TABLE {
        let a = next(state);
        state = next(a);
        let year = 1900 + a % 200;
        let (month, day) = match state % 4 {
            0 => (1 + state % 12, 1 + a % 28),
            1 => (1, 31),
            2 => (5, 31),
            _ => (10, 31),
        };
        let size = 2 + state % 30;
        texts.push(match a % 4 {
            0 => format!("day:{year}-{month:02}-{day:02}:{size}"),
            _ => format!("{year}-{month:02}-{day:02}"),
        });
    }
    texts
}

fn mixed_start(checksum: u64, period: Period) -> u64 {
    let start = match period.start() {
        Some(day) => (u64::from(day.year) * 16 + u64::from(day.month)) * 32 + u64::from(day.day),
        None => 0,
    };
    checksum.rotate_left(5).wrapping_add(start)
}

fn mixed(checksum: u64, period: Period) -> u64 {
    let months = u64::from(period.months().unwrap_or(0));
    let start = match period.start() {
        Some(day) => u64::from(day.year) * 16 + u64::from(day.month),
        None => 0,
    };
    checksum.rotate_left(5).wrapping_add((start << 16) ^ months)
}

fn read(texts: &[String], rounds: u64) -> u64 {
    let mut checksum = 0;
    for _ in 0..rounds {
        for text in texts {
            if let Ok(period) = Period::read(text.as_str()) {
                checksum = mixed(checksum, period);
            }
        }
    }
    checksum
}

fn written(periods: &[Period], rounds: u64) -> u64 {
    let mut checksum: u64 = 0;
    for _ in 0..rounds {
        for period in periods {
            let text = period.text();
            let last = text.as_bytes().last().copied().unwrap_or(0);
            checksum = checksum.rotate_left(5).wrapping_add(text.len() as u64 ^ u64::from(last));
        }
    }
    checksum
}

fn offset(periods: &[Period], rounds: u64) -> u64 {
    let mut checksum = 0;
    for round in 0..rounds {
        let k = (round % 16) as i64 - 8;
        for period in periods {
            if let Ok(moved) = period.offset(k) {
                checksum = mixed(checksum, moved);
            }
        }
    }
    checksum
}

fn named(periods: &[Period], rounds: u64) -> u64 {
    let mut checksum = 0;
    for round in 0..rounds {
        for period in periods {
            let moved = match round % 4 {
                0 => period.first_month().and_then(|month| month.offset(-1)),
                1 => period.this_year().and_then(|year| year.offset(-1)),
                2 => period.this_year(),
                _ => period.last_3_months(),
            };
            if let Ok(moved) = moved {
                checksum = mixed(checksum, moved);
            }
        }
    }
    checksum
}

fn last_months(periods: &[Period], rounds: u64) -> u64 {
    let mut checksum = 0;
    for _ in 0..rounds {
        for period in periods {
            if let Ok(count) = period.sub_count(Unit::Month) {
                checksum = mixed(checksum, period.sub(Unit::Month, count - 1));
            }
        }
    }
    checksum
}

fn compared(periods: &[Period], rounds: u64) -> u64 {
    let (mut equal, mut less) = (0u64, 0u64);
    let mut before = Period::ETERNITY;
    for _ in 0..rounds {
        for period in periods {
            equal = equal.wrapping_add(u64::from(*period == before));
            less = less.wrapping_add(u64::from(*period < before));
            before = *period;
        }
    }
    equal.wrapping_mul(1_000_003).wrapping_add(less)
}

fn hashed(periods: &[Period], rounds: u64) -> u64 {
    let mut checksum: u64 = 0;
    for _ in 0..rounds {
        for period in periods {
            let mut hasher = FoldHasher { state: 0x243f_6a88_85a3_08d3 };
            period.hash(&mut hasher);
            checksum = checksum.rotate_left(5).wrapping_add(hasher.finish());
        }
    }
    checksum
}

fn moved(days: &[Period], unit: Unit, rounds: u64) -> u64 {
    let mut checksum = 0;
    for round in 0..rounds {
        let k = (round % 16) as i64 - 8;
        for day in days {
            if let Ok(moved) = day.offset_by(k, unit) {
                checksum = mixed_start(checksum, moved);
            }
        }
    }
    checksum
}

fn year_days(periods: &[Period], rounds: u64) -> u64 {
    let mut checksum = 0;
    for round in 0..rounds {
        for period in periods {
            if let Ok(count) = period.sub_count(Unit::Day) {
                let i = (round % 365) as u32;
                checksum = mixed_start(checksum, period.sub(Unit::Day, i % count));
            }
        }
    }
    checksum
}

fn overlapping(days: &[Period], periods: &[Period], rounds: u64) -> u64 {
    let mut shared: u64 = 0;
    for _ in 0..rounds {
        for (day, period) in days.iter().zip(periods) {
            shared = shared.wrapping_add(u64::from(day.overlaps(period)));
        }
    }
    shared
}

fn main() {
    let words: Vec<String> = std::env::args().skip(1).collect();
    let rounds = words[1].parse::<u64>().unwrap() / TABLE;
    let texts = texts_of();
    let periods: Vec<Period> = texts.iter().map(|text| Period::read(text).unwrap_or(Period::ETERNITY)).collect();
    let day_texts = day_texts_of();
    let days: Vec<Period> = day_texts.iter().map(|text| Period::read(text).unwrap_or(Period::ETERNITY)).collect();
    let start = Instant::now();
    let checksum = match words[0].as_str() {
        "read" => read(&texts, rounds),
        "text" => written(&periods, rounds),
        "offset" => offset(&periods, rounds),
        "named" => named(&periods, rounds),
        "sub" => last_months(&periods, rounds),
        "compare" => compared(&periods, rounds),
        "read_days" => read(&day_texts, rounds),
        "text_days" => written(&days, rounds),
        "move_by_days" => moved(&days, Unit::Day, rounds),
        "move_by_months" => moved(&days, Unit::Month, rounds),
        "day_of_year" => year_days(&periods, rounds),
        "overlaps" => overlapping(&days, &periods, rounds),
        _ => hashed(&periods, rounds),
    };
    println!("{} {}", start.elapsed().as_nanos(), checksum);
}
