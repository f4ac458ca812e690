// The peer of `fisca_bench params`: reads the same parameter files into the same tree of exact values, and looks
// values and sums up in it. Plain Rust, std alone.
//
// rustc -O bench/peers/params.rs; ./params OPERATION COUNT
use std::borrow::Cow;
use std::cmp::Ordering;
use std::collections::{BTreeMap, HashSet};
use std::time::Instant;

const LIMIT: u64 = i64::MAX as u64;

#[derive(Clone, Copy, Debug, PartialEq, Eq)]
pub enum NumFault {
    TooWide,
    ZeroDivisor,
    NotANumber,
}

#[derive(Clone, Copy, Debug, PartialEq, Eq, Hash)]
pub struct Fraction {
    pub numerator: i64,
    pub denominator: u64,
}

/// The greatest common divisor, by halving and differences.
fn gcd(a: u64, b: u64) -> u64 {
    if a == 0 {
        return b;
    }
    if b == 0 {
        return a;
    }
    let shift = (a | b).trailing_zeros();
    let mut x = a >> a.trailing_zeros();
    let mut y = b >> b.trailing_zeros();
    while x != y {
        let halvings = y.wrapping_sub(x).trailing_zeros();
        let less = x.min(y);
        y = x.abs_diff(y) >> halvings;
        x = less;
    }
    x << shift
}

fn gcd_wide(a: u128, b: u128) -> u128 {
    let (mut x, mut y) = (a, b);
    while y != 0 {
        if x >> 64 == 0 && y >> 64 == 0 {
            return gcd(x as u64, y as u64) as u128;
        }
        (x, y) = (y, x % y);
    }
    x
}

fn signed(negative: bool, size: u64) -> i64 {
    if negative { -(size as i64) } else { size as i64 }
}

/// Parts that are in lowest terms already.
fn checked(negative: bool, size: u128, denominator: u128) -> Result<Fraction, NumFault> {
    if size > LIMIT as u128 || denominator > LIMIT as u128 {
        return Err(NumFault::TooWide);
    }
    Ok(Fraction { numerator: signed(negative, size as u64), denominator: denominator as u64 })
}

pub fn reduce(negative: bool, size: u128, denominator: u128) -> Result<Fraction, NumFault> {
    if denominator == 0 {
        return Err(NumFault::ZeroDivisor);
    }
    let divisor = gcd_wide(size, denominator);
    checked(negative, size / divisor, denominator / divisor)
}

impl Fraction {
    pub const ZERO: Fraction = Fraction { numerator: 0, denominator: 1 };

    pub fn add(self, other: Fraction) -> Result<Fraction, NumFault> {
        if self.denominator == other.denominator {
            let sum = self.numerator as i128 + other.numerator as i128;
            if self.denominator == 1 {
                return checked(sum < 0, sum.unsigned_abs(), 1);
            }
            // Both are below 2^63, so the size of the sum is a word.
            let size = sum.unsigned_abs() as u64;
            let divisor = gcd(size, self.denominator);
            return checked(sum < 0, (size / divisor) as u128, (self.denominator / divisor) as u128);
        }
        let shared = gcd(self.denominator, other.denominator);
        let (left, right) = (self.denominator / shared, other.denominator / shared);
        let sum = self.numerator as i128 * right as i128 + other.numerator as i128 * left as i128;
        let size = sum.unsigned_abs();
        if shared == 1 {
            return checked(sum < 0, size, left as u128 * other.denominator as u128);
        }
        if size >> 64 == 0 {
            let divisor = gcd(size as u64, shared);
            return checked(sum < 0, (size as u64 / divisor) as u128, left as u128 * (other.denominator / divisor) as u128);
        }
        let divisor = gcd((size % shared as u128) as u64, shared);
        checked(sum < 0, size / divisor as u128, left as u128 * (other.denominator / divisor) as u128)
    }

    pub fn mul(self, other: Fraction) -> Result<Fraction, NumFault> {
        let negative = (self.numerator < 0) != (other.numerator < 0);
        let (a, c) = (self.numerator.unsigned_abs(), other.numerator.unsigned_abs());
        let (b, d) = (self.denominator, other.denominator);
        let over = if d == 1 { 1 } else { gcd(a, d) };
        let under = if b == 1 { 1 } else { gcd(c, b) };
        if over == 1 && under == 1 {
            return checked(negative, a as u128 * c as u128, b as u128 * d as u128);
        }
        checked(negative, (a / over) as u128 * (c / under) as u128, (b / under) as u128 * (d / over) as u128)
    }

    pub fn sub(self, other: Fraction) -> Result<Fraction, NumFault> {
        self.add(Fraction { numerator: -other.numerator, ..other })
    }

    pub fn from_decimal(text: &str) -> Result<Fraction, NumFault> {
        let bytes = text.as_bytes();
        let negative = bytes.first() == Some(&b'-');
        let bytes = match bytes {
            [b'-' | b'+', rest @ ..] => rest,
            _ => bytes,
        };
        if bytes.len() > 19 {
            return long_decimal(negative, bytes);
        }
        // At most 19 digits: their number is a word, and at most 18 of them are places.
        let mut number = 0u64;
        let mut digit = false;
        let mut any = false;
        let mut point = bytes.len();
        for (index, byte) in bytes.iter().enumerate() {
            let value = byte.wrapping_sub(b'0');
            if value < 10 {
                number = 10 * number + value as u64;
                digit = true;
                any = true;
            } else if *byte == b'.' && point == bytes.len() && (digit || index == 0) {
                point = index;
                digit = false;
            } else if *byte == b'_' && digit {
                digit = false;
            } else {
                return Err(NumFault::NotANumber);
            }
        }
        let ends_well = digit || point + 1 == bytes.len();
        if !any || !ends_well || (point > 1 && bytes[0] == b'0') {
            return Err(NumFault::NotANumber);
        }
        let places = bytes[point.min(bytes.len())..].iter().filter(|byte| byte.is_ascii_digit()).count();
        if places == 0 {
            return checked(negative, number as u128, 1);
        }
        let denominator = 10u64.pow(places as u32);
        let divisor = gcd(number, denominator);
        checked(negative, (number / divisor) as u128, (denominator / divisor) as u128)
    }
}

/// A literal of any length.
#[cold]
fn long_decimal(negative: bool, bytes: &[u8]) -> Result<Fraction, NumFault> {
    let point = bytes.iter().position(|byte| *byte == b'.').unwrap_or(bytes.len());
    let places = &bytes[(point + 1).min(bytes.len())..];
    let (mut whole, mut digit) = (0u64, point == 0);
    for byte in &bytes[..point] {
        if byte.is_ascii_digit() {
            digit = true;
            whole = whole.saturating_mul(10).saturating_add((byte - b'0') as u64);
        } else if digit && *byte == b'_' {
            digit = false;
        } else {
            return Err(NumFault::NotANumber);
        }
    }
    if !digit || (point > 1 && bytes[0] == b'0') || (point == 0 && places.is_empty()) {
        return Err(NumFault::NotANumber);
    }
    let (mut number, mut count, mut few, mut digit) = (0u64, 0u32, true, places.is_empty());
    for byte in places {
        if byte.is_ascii_digit() {
            digit = true;
            if count < 18 {
                number = 10 * number + (byte - b'0') as u64;
                count += 1;
            } else if *byte != b'0' {
                few = false;
            }
        } else if digit && *byte == b'_' {
            digit = false;
        } else {
            return Err(NumFault::NotANumber);
        }
    }
    if !digit {
        return Err(NumFault::NotANumber);
    }
    if !few || whole > LIMIT {
        return Err(NumFault::TooWide);
    }
    let denominator = 10u128.pow(count);
    reduce(negative, whole as u128 * denominator + number as u128, denominator)
}

impl Ord for Fraction {
    fn cmp(&self, other: &Fraction) -> Ordering {
        if self.denominator == other.denominator {
            return self.numerator.cmp(&other.numerator);
        }
        if (self.numerator < 0) != (other.numerator < 0) {
            return self.numerator.cmp(&other.numerator);
        }
        let left = self.numerator as i128 * other.denominator as i128;
        let right = other.numerator as i128 * self.denominator as i128;
        left.cmp(&right)
    }
}

impl PartialOrd for Fraction {
    fn partial_cmp(&self, other: &Fraction) -> Option<Ordering> {
        Some(self.cmp(other))
    }
}

/// How many places a fraction over this denominator has as a decimal.

/// A day, as a number that is in order of time.
pub type Day = u32;

/// The day of a text `YYYY-MM-DD`.
fn day_of(text: &str) -> Option<Day> {
    let &[a, b, c, d, b'-', e, f, b'-', g, h] = text.as_bytes() else { return None };
    let digits = [a, b, c, d, e, f, g, h];
    if !digits.iter().all(u8::is_ascii_digit) {
        return None;
    }
    let two = |x: u8, y: u8| 10 * u32::from(x - b'0') + u32::from(y - b'0');
    let (year, month, day) = (100 * two(a, b) + two(c, d), two(e, f), two(g, h));
    let leap = year % 4 == 0 && (year % 100 != 0 || year % 400 == 0);
    let last = match month {
        2 => 28 + u32::from(leap),
        4 | 6 | 9 | 11 => 30,
        1..=12 => 31,
        _ => 0,
    };
    if year == 0 || day == 0 || day > last {
        return None;
    }
    Some((year << 16) | (month << 8) | day)
}

// Reading of YAML texts.

#[derive(Clone, Copy, Debug, PartialEq, Eq)]
pub enum Kind {
    TooLong,
    Tab,
    BadIndent,
    Unsupported,
    BadQuote,
    BadFlow,
    DuplicateKey,
    TooDeep,
    BadParameter,
    DuplicateName,
}

/// Why a file is refused, and at which of its lines.
#[derive(Clone, Copy, Debug)]
pub struct Fault {
    kind: Kind,
    line: usize,
}

fn fault<T>(line: usize, kind: Kind) -> Result<T, Fault> {
    Err(Fault { kind, line })
}

enum Tree<'a> {
    Null,
    Scalar { text: Cow<'a, str>, quoted: bool, line: usize },
    List(Vec<(usize, Tree<'a>)>),
    Map(Vec<Entry<'a>>),
}

struct Entry<'a> {
    key: Cow<'a, str>,
    line: usize,
    value: Tree<'a>,
}

#[derive(Clone, Copy)]
struct Line<'a> {
    number: usize,
    indent: usize,
    content: &'a str,
}

struct Reader<'a> {
    rest: &'a str,
    number: usize,
    next: Option<Line<'a>>,
}

fn is_blank(byte: u8) -> bool {
    byte == b' ' || byte == b'\t'
}

/// Whether a blank or the end is at a place.
fn ends_at(bytes: &[u8], at: usize) -> bool {
    bytes.get(at).is_none_or(|byte| is_blank(*byte))
}

fn trim(text: &str) -> &str {
    text.trim_matches([' ', '\t'])
}

/// What follows the blanks, and nothing where a comment does.
fn past_blanks(text: &str) -> &str {
    let rest = text.trim_start_matches([' ', '\t']);
    if rest.len() < text.len() && rest.starts_with('#') { "" } else { rest }
}

fn is_item(content: &str) -> bool {
    content.starts_with('-') && ends_at(content.as_bytes(), 1)
}

fn is_quote(content: &str) -> bool {
    content.starts_with(['"', '\''])
}

fn may_begin(content: &str) -> bool {
    let bytes = content.as_bytes();
    match bytes.first() {
        None => false,
        Some(b' ' | b'\t' | b'&' | b'*' | b'!' | b'%' | b'@' | b'`' | b',' | b']' | b'}' | b'"' | b'\'' | b'[' | b'{') => false,
        Some(b'?' | b':' | b'-') => !ends_at(bytes, 1),
        Some(_) => true,
    }
}

/// Where the colon behind a plain key stands.
fn colon(content: &str) -> Option<usize> {
    let bytes = content.as_bytes();
    let mut at = 0;
    while at < bytes.len() {
        match bytes[at] {
            b':' if ends_at(bytes, at + 1) => return Some(at),
            b'#' if at > 0 && is_blank(bytes[at - 1]) => return None,
            _ => at += 1,
        }
    }
    None
}

/// A quoted text in front, and what follows it.
fn quoted(content: &str) -> Option<(Cow<'_, str>, &str)> {
    let inner = &content[1..];
    if content.starts_with('\'') {
        let end = inner.find('\'')?;
        if !inner[end + 1..].starts_with('\'') {
            return Some((Cow::Borrowed(&inner[..end]), &inner[end + 1..]));
        }
        let (mut copy, mut left) = (String::new(), inner);
        loop {
            let end = left.find('\'')?;
            copy.push_str(&left[..end]);
            left = &left[end + 1..];
            match left.strip_prefix('\'') {
                Some(rest) => left = rest,
                None => return Some((Cow::Owned(copy), left)),
            }
            copy.push('\'');
        }
    }
    let end = inner.find(['"', '\\'])?;
    if inner.as_bytes()[end] == b'"' {
        return Some((Cow::Borrowed(&inner[..end]), &inner[end + 1..]));
    }
    let (mut copy, mut left) = (String::new(), inner);
    loop {
        let end = left.find(['"', '\\'])?;
        copy.push_str(&left[..end]);
        let escaped = left.as_bytes()[end] == b'\\';
        left = &left[end + 1..];
        if !escaped {
            return Some((Cow::Owned(copy), left));
        }
        let digits = |count: usize| -> Option<char> {
            let text = left.get(1..1 + count)?;
            if !text.bytes().all(|byte| byte.is_ascii_hexdigit()) {
                return None;
            }
            char::from_u32(u32::from_str_radix(text, 16).ok()?)
        };
        let (c, length) = match left.as_bytes().first()? {
            b'\\' => ('\\', 1),
            b'"' => ('"', 1),
            b'/' => ('/', 1),
            b'n' => ('\n', 1),
            b'r' => ('\r', 1),
            b't' => ('\t', 1),
            b'0' => ('\0', 1),
            b'x' => (digits(2)?, 3),
            b'u' => (digits(4)?, 5),
            _ => return None,
        };
        copy.push(c);
        left = &left[length..];
    }
}

fn leaf(line: usize, word: &str) -> Tree<'_> {
    match word {
        "~" | "null" | "Null" | "NULL" => Tree::Null,
        _ => Tree::Scalar { text: Cow::Borrowed(word), quoted: false, line },
    }
}

/// Why no plain scalar begins so.
fn refused(content: &str) -> Kind {
    match content.as_bytes() {
        [b'\t', ..] => Kind::Tab,
        [b'&' | b'*' | b'!' | b'%' | b'@' | b'`', ..] => Kind::Unsupported,
        [b'?' | b':' | b'-'] | [b'?' | b':' | b'-', b' ' | b'\t', ..] => Kind::Unsupported,
        _ => Kind::BadFlow,
    }
}

fn is_key(key: &str) -> bool {
    !key.is_empty() && key != "<<"
}

/// The map of these entries, where no key comes twice.
fn map_of(entries: Vec<Entry<'_>>) -> Result<Tree<'_>, Fault> {
    if entries.len() <= 16 {
        for (index, entry) in entries.iter().enumerate() {
            if entries[..index].iter().any(|other| other.key == entry.key) {
                return fault(entry.line, Kind::DuplicateKey);
            }
        }
    } else {
        let mut keys = HashSet::with_capacity(entries.len());
        for entry in &entries {
            if !keys.insert(entry.key.as_ref()) {
                return fault(entry.line, Kind::DuplicateKey);
            }
        }
    }
    Ok(Tree::Map(entries))
}

/// What is left of a line within brackets.
struct Flow<'a> {
    rest: &'a str,
    line: usize,
}

impl<'a> Flow<'a> {
    fn take(&mut self, byte: char) -> bool {
        match self.rest.strip_prefix(byte) {
            Some(rest) => {
                self.rest = rest;
                true
            }
            None => false,
        }
    }

    fn plain(&mut self) -> Option<&'a str> {
        if !may_begin(self.rest) {
            return None;
        }
        let bytes = self.rest.as_bytes();
        let mut end = 0;
        while end < bytes.len() {
            match bytes[end] {
                b',' | b']' | b'}' => break,
                b':' if bytes.get(end + 1).is_none_or(|byte| is_blank(*byte) || b",]}".contains(byte)) => break,
                b'#' if end > 0 && is_blank(bytes[end - 1]) => break,
                _ => end += 1,
            }
        }
        if end == 0 {
            return None;
        }
        let (word, rest) = self.rest.split_at(end);
        self.rest = rest;
        Some(trim(word))
    }

    fn value(&mut self, depth: usize) -> Result<Tree<'a>, Fault> {
        let is_list = self.take('[');
        if is_list || self.take('{') {
            if depth == 0 {
                return fault(self.line, Kind::TooDeep);
            }
            self.rest = past_blanks(self.rest);
            return if is_list { self.items(depth - 1) } else { self.entries(depth - 1) };
        }
        if is_quote(self.rest) {
            let Some((text, rest)) = quoted(self.rest) else { return fault(self.line, Kind::BadQuote) };
            self.rest = rest;
            return Ok(Tree::Scalar { text, quoted: true, line: self.line });
        }
        match self.plain() {
            Some(word) => Ok(leaf(self.line, word)),
            None => fault(self.line, refused(self.rest)),
        }
    }

    fn separate(&mut self, close: char) -> Result<(), Fault> {
        self.rest = past_blanks(self.rest);
        if self.take(',') {
            self.rest = past_blanks(self.rest);
        } else if !self.rest.starts_with(close) {
            return fault(self.line, Kind::BadFlow);
        }
        Ok(())
    }

    fn items(&mut self, depth: usize) -> Result<Tree<'a>, Fault> {
        let mut items = Vec::new();
        while !self.take(']') {
            items.push((self.line, self.value(depth)?));
            self.separate(']')?;
        }
        Ok(Tree::List(items))
    }

    fn entries(&mut self, depth: usize) -> Result<Tree<'a>, Fault> {
        let mut entries = Vec::new();
        while !self.take('}') {
            let loose = is_quote(self.rest);
            let key = if loose {
                let Some((key, rest)) = quoted(self.rest) else { return fault(self.line, Kind::BadQuote) };
                self.rest = rest;
                key
            } else {
                match self.plain() {
                    Some(word) => Cow::Borrowed(word),
                    None => return fault(self.line, refused(self.rest)),
                }
            };
            self.rest = past_blanks(self.rest);
            if !self.take(':') || !(loose || self.rest.is_empty() || self.rest.starts_with([' ', '\t', ',', ']', '}'])) {
                return fault(self.line, Kind::BadFlow);
            }
            if !is_key(&key) {
                return fault(self.line, Kind::Unsupported);
            }
            self.rest = past_blanks(self.rest);
            let value = if self.rest.starts_with([',', '}']) { Tree::Null } else { self.value(depth)? };
            entries.push(Entry { key, line: self.line, value });
            self.separate('}')?;
        }
        map_of(entries)
    }
}

impl<'a> Line<'a> {
    fn rank(&self) -> usize {
        2 * self.indent + 1 + usize::from(is_item(self.content))
    }

    /// What follows a dash or a colon, as a line at its own column.
    fn following(number: usize, column: usize, text: &'a str) -> Option<Line<'a>> {
        let content = text.trim_start_matches([' ', '\t']);
        if content.is_empty() || content.starts_with('#') {
            return None;
        }
        Some(Line { number, indent: column + (text.len() - content.len()), content })
    }

    /// The key of an entry that begins here, and what follows its colon.
    fn entry(&self) -> Option<(Cow<'a, str>, &'a str)> {
        if is_quote(self.content) {
            let (key, rest) = quoted(self.content)?;
            let rest = past_blanks(rest).strip_prefix(':')?;
            return if ends_at(rest.as_bytes(), 0) { Some((key, rest)) } else { None };
        }
        if !may_begin(self.content) {
            return None;
        }
        let at = colon(self.content)?;
        Some((Cow::Borrowed(trim(&self.content[..at])), &self.content[at + 1..]))
    }

    fn opens(&self) -> bool {
        is_item(self.content) || self.entry().is_some()
    }

    fn is_bare(&self, marks: &str) -> bool {
        self.indent == 0 && self.content.starts_with(marks) && ends_at(self.content.as_bytes(), 3) && past_blanks(&self.content[3..]).is_empty()
    }

    /// The value that begins and ends on the line.
    fn value(&self, depth: usize) -> Result<Tree<'a>, Fault> {
        if self.content.starts_with(['[', '{']) {
            let mut flow = Flow { rest: self.content, line: self.number };
            let tree = flow.value(depth)?;
            return if past_blanks(flow.rest).is_empty() { Ok(tree) } else { fault(self.number, Kind::BadFlow) };
        }
        if is_quote(self.content) {
            return match quoted(self.content) {
                Some((text, rest)) if past_blanks(rest).is_empty() => Ok(Tree::Scalar { text, quoted: true, line: self.number }),
                _ => fault(self.number, Kind::BadQuote),
            };
        }
        if !may_begin(self.content) {
            return fault(self.number, refused(self.content));
        }
        let bytes = self.content.as_bytes();
        let mut end = bytes.len();
        for (at, byte) in bytes.iter().enumerate() {
            if *byte == b':' && ends_at(bytes, at + 1) {
                return fault(self.number, Kind::Unsupported);
            }
            if *byte == b'#' && at > 0 && is_blank(bytes[at - 1]) {
                end = at;
                break;
            }
        }
        Ok(leaf(self.number, trim(&self.content[..end])))
    }
}

impl<'a> Reader<'a> {
    fn advance(&mut self) {
        while !self.rest.is_empty() {
            let (line, rest) = self.rest.split_once('\n').unwrap_or((self.rest, ""));
            let line = line.strip_suffix('\r').unwrap_or(line);
            let number = self.number;
            (self.rest, self.number) = (rest, number + 1);
            let content = line.trim_start_matches(' ');
            let inner = content.trim_start_matches([' ', '\t']);
            if !inner.is_empty() && !inner.starts_with('#') {
                self.next = Some(Line { number, indent: line.len() - content.len(), content });
                return;
            }
        }
        self.next = None;
    }

    /// Takes the next line, where it is deeper than this.
    fn deeper(&mut self, floor: usize) -> Option<Line<'a>> {
        let line = self.next.filter(|line| line.rank() > floor)?;
        self.advance();
        Some(line)
    }

    fn misfit(&self, line: Line<'a>, open: bool, depth: usize) -> Fault {
        if line.content.starts_with('\t') {
            return Fault { kind: Kind::Tab, line: line.number };
        }
        if !open {
            return Fault { kind: Kind::BadIndent, line: line.number };
        }
        match line.value(depth) {
            Err(fault) => fault,
            Ok(_) => Fault { kind: Kind::Unsupported, line: line.number },
        }
    }

    fn block(&mut self, head: Line<'a>, floor: usize, depth: usize) -> Result<Tree<'a>, Fault> {
        if depth == 0 {
            return fault(head.number, Kind::TooDeep);
        }
        let (rank, indent) = (head.rank(), head.indent);
        let mut next = Some(head);
        if is_item(head.content) {
            let mut items = Vec::new();
            while let Some(line) = next {
                if line.rank() != rank {
                    return Err(self.misfit(line, line.indent == indent, depth - 1));
                }
                items.push((line.number, self.item(line, depth - 1)?));
                next = self.deeper(floor);
            }
            return Ok(Tree::List(items));
        }
        let mut entries = Vec::new();
        while let Some(line) = next {
            if line.rank() != rank {
                return Err(self.misfit(line, line.indent == indent, depth - 1));
            }
            let Some((key, tail)) = line.entry() else { return Err(self.misfit(line, true, depth - 1)) };
            if !is_key(&key) {
                return fault(line.number, Kind::Unsupported);
            }
            let value = match Line::following(line.number, 0, tail) {
                None => self.below(rank, depth - 1)?,
                Some(inner) => self.beside(inner, line.indent, rank, depth - 1)?,
            };
            entries.push(Entry { key, line: line.number, value });
            next = self.deeper(floor);
        }
        map_of(entries)
    }

    fn item(&mut self, line: Line<'a>, depth: usize) -> Result<Tree<'a>, Fault> {
        let floor = line.rank();
        match Line::following(line.number, line.indent + 1, &line.content[1..]) {
            None => self.below(floor, depth),
            Some(inner) if inner.opens() => self.block(inner, floor, depth),
            Some(inner) => self.beside(inner, line.indent, floor, depth),
        }
    }

    fn below(&mut self, floor: usize, depth: usize) -> Result<Tree<'a>, Fault> {
        match self.deeper(floor) {
            None => Ok(Tree::Null),
            Some(head) if head.opens() => self.block(head, floor, depth),
            Some(head) => Err(self.misfit(head, true, depth)),
        }
    }

    fn beside(&mut self, line: Line<'a>, indent: usize, floor: usize, depth: usize) -> Result<Tree<'a>, Fault> {
        if !line.content.starts_with(['|', '>']) {
            let tree = line.value(depth)?;
            return match self.deeper(floor) {
                None => Ok(tree),
                Some(deeper) => Err(self.misfit(deeper, false, depth)),
            };
        }
        let header = line.content[1..].trim_start_matches(['+', '-', '0', '1', '2', '3', '4', '5', '6', '7', '8', '9']);
        if !past_blanks(header).is_empty() {
            return fault(line.number, Kind::Unsupported);
        }
        while let Some(inside) = self.deeper(floor) {
            if inside.indent <= indent || inside.content.starts_with('\t') {
                return Err(self.misfit(inside, true, depth));
            }
        }
        Ok(Tree::Scalar { text: Cow::Borrowed(""), quoted: true, line: line.number })
    }
}

fn read_yaml(text: &str) -> Result<Tree<'_>, Fault> {
    if text.len() > 1 << 20 {
        return fault(1, Kind::TooLong);
    }
    let mut reader = Reader { rest: text, number: 1, next: None };
    reader.advance();
    if reader.next.is_some_and(|line| line.is_bare("---")) {
        reader.advance();
    }
    match reader.deeper(0) {
        None => Ok(Tree::Null),
        Some(head) if head.is_bare("---") || head.is_bare("...") => fault(head.number, Kind::Unsupported),
        Some(head) if head.opens() => reader.block(head, 0, 16),
        Some(head) => {
            let tree = head.value(16)?;
            match reader.deeper(0) {
                None => Ok(tree),
                Some(deeper) => Err(reader.misfit(deeper, false, 16)),
            }
        }
    }
}

impl<'a> Tree<'a> {
    fn get(&self, name: &str) -> Option<&Tree<'a>> {
        let Tree::Map(entries) = self else { return None };
        entries.iter().find(|entry| entry.key == name).map(|entry| &entry.value)
    }

    fn number(&self) -> Option<Fraction> {
        match self {
            Tree::Scalar { text, quoted: false, .. } => Fraction::from_decimal(text).ok(),
            _ => None,
        }
    }

    fn truth(&self) -> Option<bool> {
        let Tree::Scalar { text, quoted: false, .. } = self else { return None };
        match text.as_ref() {
            "true" | "True" | "TRUE" | "yes" | "Yes" | "YES" | "on" | "On" | "ON" => Some(true),
            "false" | "False" | "FALSE" | "no" | "No" | "NO" | "off" | "Off" | "OFF" => Some(false),
            _ => None,
        }
    }

    fn line(&self) -> Option<usize> {
        match self {
            Tree::Scalar { line, .. } => Some(*line),
            Tree::List(items) => items.first().map(|item| item.0),
            _ => None,
        }
    }
}

// Parameters.

/// Values from a day on, in order of time.
struct Dates<V> {
    items: Vec<(Day, Option<V>)>,
}

impl<V: Copy> Dates<V> {
    fn value_at(&self, day: Day) -> Option<V> {
        let count = self.items.partition_point(|dated| dated.0 <= day);
        self.items.get(count.checked_sub(1)?)?.1
    }
}

struct Bracket {
    threshold: Dates<Fraction>,
    rate: Dates<Fraction>,
    amount: Dates<Fraction>,
}

#[derive(Clone, Copy, PartialEq)]
enum ScaleKind {
    MarginalRate,
    MarginalAmount,
    SingleAmount,
}

#[derive(Clone, Copy, Debug, PartialEq)]
pub enum CalcFault {
    BadScale,
    Undefined,
    Number(NumFault),
}

struct Scale {
    is_single_amount: bool,
    brackets: Vec<Bracket>,
}

enum Content {
    Folder,
    Branch,
    Numbers(Dates<Fraction>),
    Bools(Dates<bool>),
    Unusable,
    Scale(Scale),
}

pub enum Value {
    Number(Fraction),
    Bool(bool),
}

struct Node {
    children: BTreeMap<Box<str>, usize>,
    content: Content,
}

pub struct SourceFile {
    pub path: String,
    pub text: String,
}

pub struct ParamTree {
    nodes: Vec<Node>,
}

fn written_value<'t, 'a>(tree: &'t Tree<'a>) -> Option<&'t Tree<'a>> {
    match tree {
        Tree::Map(_) => tree.get("value").filter(|value| !matches!(value, Tree::Map(_))),
        _ => Some(tree),
    }
}

/// The values of a date map, where each is null or is read. The fault is that of an entry without a day or a value.
fn dates_in<'a, V: Copy>(entries: &[Entry<'a>], read: impl Fn(&Tree<'a>) -> Option<V>) -> Result<Option<Dates<V>>, Fault> {
    let mut items = Vec::with_capacity(entries.len());
    let mut all = true;
    for entry in entries {
        let (Some(day), Some(value)) = (day_of(&entry.key), written_value(&entry.value)) else {
            return fault(entry.line, Kind::BadParameter);
        };
        match (value, all) {
            (Tree::Null, _) => items.push((day, None)),
            (_, true) => match read(value) {
                Some(value) => items.push((day, Some(value))),
                None => all = false,
            },
            _ => {}
        }
    }
    if !all {
        return Ok(None);
    }
    if !items.is_sorted_by_key(|dated| dated.0) {
        items.sort_by_key(|dated| dated.0);
    }
    Ok(Some(Dates { items }))
}

fn date_map<'t, 'a>(tree: &'t Tree<'a>) -> Option<&'t Tree<'a>> {
    let Tree::Map(entries) = tree else { return None };
    if let Some(values) = tree.get("values") {
        return Some(values);
    }
    let is_date_map = !entries.is_empty() && entries.iter().all(|entry| day_of(&entry.key).is_some());
    if is_date_map { Some(tree) } else { None }
}

fn read_bracket(line: usize, tree: &Tree<'_>) -> Result<Bracket, Fault> {
    let Tree::Map(entries) = tree else { return fault(tree.line().unwrap_or(line), Kind::BadParameter) };
    let empty = || Dates { items: Vec::new() };
    let mut bracket = Bracket { threshold: empty(), rate: empty(), amount: empty() };
    for entry in entries {
        let field = match entry.key.as_ref() {
            "threshold" => &mut bracket.threshold,
            "rate" => &mut bracket.rate,
            "amount" => &mut bracket.amount,
            _ => return fault(entry.line, Kind::BadParameter),
        };
        let Some(Tree::Map(dates)) = date_map(&entry.value) else {
            return fault(entry.value.line().unwrap_or(entry.line), Kind::BadParameter);
        };
        match dates_in(dates, Tree::number)? {
            Some(dates) => *field = dates,
            None => return fault(entry.line, Kind::BadParameter),
        }
    }
    Ok(bracket)
}

impl Bracket {
    fn field(&self, kind: ScaleKind) -> &Dates<Fraction> {
        if kind == ScaleKind::MarginalRate { &self.rate } else { &self.amount }
    }

    /// Its threshold and the field that is summed.
    fn complete_at(&self, kind: ScaleKind, day: Day) -> Option<(Fraction, Fraction)> {
        Some((self.threshold.value_at(day)?, self.field(kind).value_at(day)?))
    }
}

/// The sum with one more bracket, where `next` is the threshold after its own.
fn added(kind: ScaleKind, base: Fraction, sum: Fraction, bracket: (Fraction, Fraction), next: Option<Fraction>) -> Result<Fraction, NumFault> {
    let (threshold, value) = bracket;
    match kind {
        ScaleKind::MarginalRate if threshold < base => {
            let upper = next.map_or(base, |next| next.min(base));
            sum.add(value.mul(upper.sub(threshold)?)?)
        }
        ScaleKind::MarginalAmount if threshold < base => sum.add(value),
        ScaleKind::SingleAmount if threshold <= base => Ok(value),
        _ => Ok(sum),
    }
}

impl Scale {
    fn kind_at(&self, day: Day) -> ScaleKind {
        if self.is_single_amount {
            ScaleKind::SingleAmount
        } else if self.brackets.iter().any(|bracket| bracket.amount.value_at(day).is_some()) {
            ScaleKind::MarginalAmount
        } else {
            ScaleKind::MarginalRate
        }
    }

    fn sum(&self, day: Day, base: Fraction) -> Result<Fraction, CalcFault> {
        let kind = self.kind_at(day);
        let mut sum = Ok(Fraction::ZERO);
        let mut last: Option<(Fraction, Fraction)> = None;
        for bracket in &self.brackets {
            let Some(next) = bracket.complete_at(kind, day) else { continue };
            if let Some(before) = last {
                if before.0 >= next.0 {
                    return self.sum_sorted(kind, day, base);
                }
                sum = sum.and_then(|sum| added(kind, base, sum, before, Some(next.0)));
            }
            last = Some(next);
        }
        let last = last.ok_or(CalcFault::Undefined)?;
        sum.and_then(|sum| added(kind, base, sum, last, None)).map_err(CalcFault::Number)
    }

    #[cold]
    fn sum_sorted(&self, kind: ScaleKind, day: Day, base: Fraction) -> Result<Fraction, CalcFault> {
        let mut brackets: Vec<_> = self.brackets.iter().filter_map(|bracket| bracket.complete_at(kind, day)).collect();
        brackets.sort_by(|a, b| a.0.cmp(&b.0));
        if brackets.windows(2).any(|pair| pair[0].0 == pair[1].0) {
            return Err(CalcFault::BadScale);
        }
        let mut sum = Fraction::ZERO;
        for (index, bracket) in brackets.iter().enumerate() {
            let next = brackets.get(index + 1).map(|next| next.0);
            sum = added(kind, base, sum, *bracket, next).map_err(CalcFault::Number)?;
        }
        Ok(sum)
    }
}

fn is_description(key: &str) -> bool {
    matches!(key, "description" | "metadata" | "reference" | "documentation" | "unit")
}

/// The path of a parameter file below the folder `parameters`, without its ending.
fn parameter_path(path: &str) -> Option<&str> {
    let name = path.strip_prefix("parameters/")?;
    name.strip_suffix(".yaml").or(name.strip_suffix(".yml"))
}

impl ParamTree {
    pub fn read(files: &[SourceFile]) -> Result<ParamTree, (usize, Fault)> {
        let mut order: Vec<usize> = (0..files.len()).collect();
        order.sort_by(|a, b| files[*a].path.cmp(&files[*b].path));
        let mut tree = ParamTree { nodes: vec![Node { children: BTreeMap::new(), content: Content::Folder }] };
        for place in order {
            if let Some(path) = parameter_path(&files[place].path) {
                tree.put_file(path, &files[place].text).map_err(|fault| (place, fault))?;
            }
        }
        Ok(tree)
    }

    fn put_file(&mut self, path: &str, text: &str) -> Result<(), Fault> {
        let yaml = read_yaml(text)?;
        let (mut folder, mut rest) = (0, path);
        while let Some((name, below)) = rest.split_once('/') {
            rest = below;
            folder = match self.nodes[folder].children.get(name) {
                None => self.put(folder, name, Content::Folder),
                Some(place) if matches!(self.nodes[*place].content, Content::Folder) => *place,
                Some(_) => return fault(1, Kind::DuplicateName),
            };
        }
        if rest != "index" {
            return self.put_node(folder, rest, 1, &yaml);
        }
        match &yaml {
            Tree::Null => Ok(()),
            Tree::Map(entries) => match entries.iter().find(|entry| !is_description(&entry.key)) {
                None => Ok(()),
                Some(entry) => fault(entry.line, Kind::BadParameter),
            },
            _ => fault(yaml.line().unwrap_or(1), Kind::BadParameter),
        }
    }

    fn put(&mut self, parent: usize, name: &str, content: Content) -> usize {
        let place = self.nodes.len();
        self.nodes[parent].children.insert(name.into(), place);
        self.nodes.push(Node { children: BTreeMap::new(), content });
        place
    }

    fn put_node(&mut self, parent: usize, name: &str, line: usize, tree: &Tree<'_>) -> Result<(), Fault> {
        let Tree::Map(entries) = tree else { return fault(tree.line().unwrap_or(line), Kind::BadParameter) };
        if self.nodes[parent].children.contains_key(name) {
            return fault(line, Kind::DuplicateName);
        }
        let line_at = |key: &str| entries.iter().find(|entry| entry.key == key).map_or(line, |entry| entry.line);
        let (values, brackets) = (tree.get("values"), tree.get("brackets"));
        let content = if values.is_some() || (brackets.is_none() && date_map(tree).is_some()) {
            let Tree::Map(dates) = values.unwrap_or(tree) else { return fault(line_at("values"), Kind::BadParameter) };
            if let Some(numbers) = dates_in(dates, Tree::number)? {
                Content::Numbers(numbers)
            } else if let Some(bools) = dates_in(dates, Tree::truth)? {
                Content::Bools(bools)
            } else {
                Content::Unusable
            }
        } else if let Some(brackets) = brackets {
            let Tree::List(items) = brackets else { return fault(line_at("brackets"), Kind::BadParameter) };
            let kind = tree.get("metadata").and_then(|metadata| metadata.get("type"));
            let is_single_amount = matches!(kind, Some(Tree::Scalar { text, .. }) if text == "single_amount");
            let brackets = items.iter().map(|item| read_bracket(item.0, &item.1)).collect::<Result<_, _>>()?;
            Content::Scale(Scale { is_single_amount, brackets })
        } else {
            Content::Branch
        };
        let is_branch = matches!(content, Content::Branch);
        let place = self.put(parent, name, content);
        if is_branch {
            for entry in entries {
                if !is_description(&entry.key) {
                    self.put_node(place, &entry.key, entry.line, &entry.value)?;
                }
            }
        }
        Ok(())
    }

    pub fn child(&self, node: usize, name: &str) -> Option<usize> {
        self.nodes[node].children.get(name).copied()
    }

    fn count(&self) -> usize {
        self.nodes.iter().filter(|node| !matches!(node.content, Content::Folder | Content::Branch)).count()
    }

    pub fn value_at(&self, node: usize, day: Day) -> Option<Value> {
        match &self.nodes[node].content {
            Content::Numbers(dates) => Some(Value::Number(dates.value_at(day)?)),
            Content::Bools(dates) => Some(Value::Bool(dates.value_at(day)?)),
            _ => None,
        }
    }

    pub fn calc(&self, node: usize, day: Day, base: Fraction) -> Result<Fraction, CalcFault> {
        match &self.nodes[node].content {
            Content::Scale(scale) => scale.sum(day, base),
            _ => Err(CalcFault::Undefined),
        }
    }
}

// The measures.

pub fn mixed(checksum: u64, number: Fraction) -> u64 {
    checksum.rotate_left(5).wrapping_add(number.numerator.unsigned_abs() ^ (number.denominator << 32))
}

fn with_value(checksum: u64, value: Option<Value>) -> u64 {
    match value {
        None => checksum.rotate_left(1),
        Some(Value::Bool(value)) => checksum.rotate_left(2).wrapping_add(u64::from(value)),
        Some(Value::Number(number)) => mixed(checksum, number),
    }
}

pub fn files_of(path: &str) -> Vec<SourceFile> {
    let text = std::fs::read_to_string(path).unwrap();
    let parts: Vec<&str> = text.split('\u{1}').collect();
    parts.chunks_exact(2).map(|pair| SourceFile { path: pair[0].to_string(), text: pair[1].to_string() }).collect()
}

/// The node of a parameter file.
pub fn find(tree: &ParamTree, path: &str) -> Option<usize> {
    parameter_path(path)?.split('/').try_fold(0, |node, name| tree.child(node, name))
}

/// The first days of the months of 2000 to 2015, three months apart, in no order.
fn days() -> Vec<Day> {
    (0..64).map(|i| i * 37 % 64).filter_map(|i| day_of(&format!("{}-{:02}-01", 2000 + i / 4, 1 + i % 4 * 3))).collect()
}

/// Numbers from 0 to 14,999, without places or with two.
fn bases(places: bool) -> Vec<Fraction> {
    let mut state = 88_172_645_463_325_252u64;
    let mut bases = Vec::new();
    for _ in 0..1024 {
        state ^= state << 13;
        state ^= state >> 7;
        state ^= state << 17;
        let hundredths = if places { state % 1_500_000 } else { state % 15_000 * 100 };
        bases.push(Fraction::from_decimal(&format!("{}.{:02}", hundredths / 100, hundredths % 100)).unwrap());
    }
    bases
}

/// What stands at the files' nodes on a day.
fn told(tree: &ParamTree, files: &[SourceFile]) -> u64 {
    let day = day_of("2010-06-15").unwrap();
    let base = Fraction::from_decimal("9876.5").unwrap();
    let mut checksum = tree.count() as u64;
    for file in files {
        let Some(node) = find(tree, &file.path) else { continue };
        checksum = match tree.calc(node, day, base) {
            Ok(sum) => mixed(checksum, sum),
            Err(_) => with_value(checksum, tree.value_at(node, day)),
        };
    }
    checksum
}

fn read(files: &[SourceFile], count: u64) -> u64 {
    let mut checksum = 0;
    for _ in 0..count {
        checksum = match ParamTree::read(files) {
            Ok(tree) => tree.count() as u64,
            Err((place, fault)) => {
                eprintln!("{}:{}: {:?}", files[place].path, fault.line, fault.kind);
                0
            }
        };
    }
    checksum
}

fn values(tree: &ParamTree, files: &[SourceFile], days: &[Day], count: u64) -> u64 {
    let rounds = count / (files.len() * days.len()) as u64;
    let mut checksum = 0;
    for file in files {
        let Some(node) = find(tree, &file.path) else { continue };
        for _ in 0..rounds {
            for day in days {
                checksum = with_value(checksum, tree.value_at(node, *day));
            }
        }
    }
    checksum
}

fn sums(tree: &ParamTree, node: usize, days: &[Day], bases: &[Fraction], count: u64) -> u64 {
    let rounds = count / (days.len() * bases.len()) as u64;
    let mut checksum = 0;
    for _ in 0..rounds {
        for day in days {
            for base in bases {
                if let Ok(sum) = tree.calc(node, *day, *base) {
                    checksum = mixed(checksum, sum);
                }
            }
        }
    }
    checksum
}

fn main() {
    let words: Vec<String> = std::env::args().skip(1).collect();
    let count = words[words.len() - 1].parse::<u64>().unwrap();
    let files = files_of("bench/out/params/files");
    let Ok(tree) = ParamTree::read(&files) else { return };
    let days = days();
    let bases = bases(words.len() > 2 && words[1] == "hundredths");
    let scale = find(&tree, "parameters/taxes/income_tax.yaml").unwrap();
    let start = Instant::now();
    let checksum = match words[0].as_str() {
        "read" => read(&files, count),
        "value_at" => values(&tree, &files, &days, count),
        _ => sums(&tree, scale, &days, &bases, count),
    };
    let nanoseconds = start.elapsed().as_nanos();
    println!("{} {}", nanoseconds, checksum ^ told(&tree, &files));
}
