// The YAML of files of tests, read in plain Rust for bench/peers/tests.rs: maps and lists by lines, brackets on a
// line, plain scalars and such in single quotes.
use crate::params::Fraction;
use std::collections::HashSet;

const MOST_BYTES: usize = 1 << 20;

pub enum Tree<'a> {
    Null,
    Scalar(&'a str, bool, u32),
    List(Vec<(u32, Tree<'a>)>),
    Map(Vec<Entry<'a>>),
}

pub struct Entry<'a> {
    pub key: &'a str,
    pub line: u32,
    pub value: Tree<'a>,
}

/// A refusal: a word and its line.
pub struct Refused(pub &'static str, pub u32);

#[derive(Clone, Copy)]
struct Line<'a> {
    number: u32,
    indent: usize,
    content: &'a str,
}

/// The lines with content. Those that are not taken yet begin at a byte of the text.
struct Lines<'a> {
    text: &'a str,
    at: usize,
    number: u32,
    next: Option<Line<'a>>,
}

fn leaf(word: &str, line: u32) -> Tree<'_> {
    match word {
        "" | "~" | "null" | "Null" | "NULL" => Tree::Null,
        _ => Tree::Scalar(word, false, line),
    }
}

/// Where a comment begins, or the end.
fn past_word(bytes: &[u8]) -> usize {
    let mut at = 0;
    while at < bytes.len() {
        if bytes[at] == b'#' && at > 0 && matches!(bytes[at - 1], b' ' | b'\t') {
            return at;
        }
        at += 1;
    }
    at
}

fn map_of<'a>(entries: Vec<Entry<'a>>) -> Result<Tree<'a>, Refused> {
    if entries.len() <= 16 {
        for (place, entry) in entries.iter().enumerate() {
            if entries[..place].iter().any(|other| other.key == entry.key) {
                return Err(Refused("DuplicateKey", entry.line));
            }
        }
    } else {
        let mut keys = HashSet::with_capacity(entries.len());
        for entry in &entries {
            if !keys.insert(entry.key) {
                return Err(Refused("DuplicateKey", entry.line));
            }
        }
    }
    Ok(Tree::Map(entries))
}

/// What stands in brackets from a byte on.
struct Flow<'a> {
    text: &'a str,
    at: usize,
    line: u32,
}

impl<'a> Flow<'a> {
    fn blanks(&mut self) {
        let bytes = self.text.as_bytes();
        while self.at < bytes.len() && matches!(bytes[self.at], b' ' | b'\t') {
            self.at += 1;
        }
    }

    fn byte(&self) -> u8 {
        self.text.as_bytes().get(self.at).copied().unwrap_or(0)
    }

    fn word(&mut self) -> Result<&'a str, Refused> {
        let bytes = self.text.as_bytes();
        let first = self.at;
        while self.at < bytes.len() {
            match bytes[self.at] {
                b',' | b']' | b'}' => break,
                b':' if bytes.get(self.at + 1).is_none_or(|byte| matches!(byte, b' ' | b'\t' | b',' | b']' | b'}')) => break,
                _ => self.at += 1,
            }
        }
        let word = self.text[first..self.at].trim_end_matches([' ', '\t']);
        if word.is_empty() || matches!(word.as_bytes()[0], b'&' | b'*' | b'!' | b'%' | b'@' | b'`' | b'"') { Err(Refused("Unsupported", self.line)) } else { Ok(word) }
    }

    fn quoted(&mut self) -> Result<&'a str, Refused> {
        let first = self.at + 1;
        let Some(length) = self.text[first..].find('\'') else { return Err(Refused("BadQuote", self.line)) };
        self.at = first + length + 1;
        Ok(&self.text[first..first + length])
    }

    fn value(&mut self, depth: u32) -> Result<Tree<'a>, Refused> {
        match self.byte() {
            b'[' | b'{' if depth == 0 => Err(Refused("TooDeep", self.line)),
            b'[' => {
                self.at += 1;
                self.blanks();
                let mut items = Vec::new();
                while self.byte() != b']' {
                    items.push((self.line, self.value(depth - 1)?));
                    self.separate(b']')?;
                }
                self.at += 1;
                Ok(Tree::List(items))
            }
            b'{' => {
                self.at += 1;
                self.blanks();
                let mut entries = Vec::new();
                while self.byte() != b'}' {
                    let key = if self.byte() == b'\'' { self.quoted()? } else { self.word()? };
                    self.blanks();
                    if self.byte() != b':' {
                        return Err(Refused("BadFlow", self.line));
                    }
                    self.at += 1;
                    self.blanks();
                    let value = if matches!(self.byte(), b',' | b'}') { Tree::Null } else { self.value(depth - 1)? };
                    entries.push(Entry { key, line: self.line, value });
                    self.separate(b'}')?;
                }
                self.at += 1;
                map_of(entries)
            }
            b'\'' => Ok(Tree::Scalar(self.quoted()?, true, self.line)),
            _ => Ok(leaf(self.word()?, self.line)),
        }
    }

    fn separate(&mut self, close: u8) -> Result<(), Refused> {
        self.blanks();
        if self.byte() == b',' {
            self.at += 1;
            self.blanks();
        } else if self.byte() != close {
            return Err(Refused("BadFlow", self.line));
        }
        Ok(())
    }
}

impl<'a> Line<'a> {
    fn is_item(&self) -> bool {
        let bytes = self.content.as_bytes();
        bytes[0] == b'-' && bytes.get(1).is_none_or(|byte| *byte == b' ')
    }

    /// The key of an entry, and where its value begins.
    fn key(&self) -> Option<(&'a str, usize)> {
        let bytes = self.content.as_bytes();
        if matches!(bytes[0], b'[' | b'{' | b'\'' | b'"') {
            return None;
        }
        let mut at = 0;
        while at < bytes.len() {
            if bytes[at] == b':' && bytes.get(at + 1).is_none_or(|byte| matches!(byte, b' ' | b'\t')) {
                return Some((self.content[..at].trim_end_matches([' ', '\t']), at + 1));
            }
            at += 1;
        }
        None
    }

    /// The value that begins at a byte and ends on the line.
    fn value(&self, from: usize, depth: u32) -> Result<Tree<'a>, Refused> {
        let mut flow = Flow { text: self.content, at: from, line: self.number };
        match flow.byte() {
            b'[' | b'{' | b'\'' => {
                let tree = flow.value(depth)?;
                flow.blanks();
                if flow.at < self.content.len() && flow.byte() != b'#' { Err(Refused("BadFlow", self.number)) } else { Ok(tree) }
            }
            _ => {
                let rest = &self.content[from..];
                let word = rest[..past_word(rest.as_bytes())].trim_end_matches([' ', '\t']);
                Ok(leaf(word, self.number))
            }
        }
    }
}

impl<'a> Lines<'a> {
    fn advance(&mut self) {
        let bytes = self.text.as_bytes();
        while self.at < bytes.len() {
            let first = self.at;
            let mut at = first;
            while at < bytes.len() && bytes[at] == b' ' {
                at += 1;
            }
            let end = self.text[at..].find('\n').map_or(bytes.len(), |length| at + length);
            let number = self.number;
            (self.at, self.number) = (end + 1, number + 1);
            if at < end && bytes[at] != b'#' {
                self.next = Some(Line { number, indent: at - first, content: &self.text[at..end] });
                return;
            }
        }
        self.next = None;
    }

    /// The list or map that begins with a line.
    fn block(&mut self, head: Line<'a>, depth: u32) -> Result<Tree<'a>, Refused> {
        if depth == 0 {
            return Err(Refused("TooDeep", head.number));
        }
        let (indent, is_list) = (head.indent, head.is_item());
        let (mut items, mut entries) = (Vec::new(), Vec::new());
        let mut line = head;
        loop {
            if is_list {
                let rest = line.content[1..].trim_start_matches([' ', '\t']);
                let inner = Line { number: line.number, indent: indent + line.content.len() - rest.len(), content: rest };
                let value = if rest.is_empty() || rest.starts_with('#') {
                    self.below(indent, false, depth - 1)?
                } else if inner.is_item() || inner.key().is_some() {
                    self.block(inner, depth - 1)?
                } else {
                    inner.value(0, depth - 1)?
                };
                items.push((line.number, value));
            } else {
                let Some((key, behind)) = line.key() else { return Err(Refused("Unsupported", line.number)) };
                let mut from = behind;
                while from < line.content.len() && matches!(line.content.as_bytes()[from], b' ' | b'\t') {
                    from += 1;
                }
                let is_bare = from == line.content.len() || line.content.as_bytes()[from] == b'#';
                let value = if is_bare { self.below(indent, true, depth - 1)? } else { line.value(from, depth - 1)? };
                entries.push(Entry { key, line: line.number, value });
            }
            match self.next {
                Some(next) if next.indent == indent && next.is_item() == is_list => {
                    line = next;
                    self.advance();
                }
                Some(next) if next.indent > indent => return Err(Refused("BadIndent", next.number)),
                _ => return if is_list { Ok(Tree::List(items)) } else { map_of(entries) },
            }
        }
    }

    /// The block of deeper lines; below a key also a list at its own indentation.
    fn below(&mut self, indent: usize, is_key: bool, depth: u32) -> Result<Tree<'a>, Refused> {
        match self.next {
            Some(next) if next.indent > indent || is_key && next.indent == indent && next.is_item() => {
                self.advance();
                self.block(next, depth)
            }
            _ => Ok(Tree::Null),
        }
    }
}

pub fn read_yaml(text: &str) -> Result<Tree<'_>, Refused> {
    if text.len() > MOST_BYTES {
        return Err(Refused("TooLong", 1));
    }
    let mut lines = Lines { text, at: 0, number: 1, next: None };
    lines.advance();
    let Some(head) = lines.next else { return Ok(Tree::Null) };
    lines.advance();
    let tree = if head.is_item() || head.key().is_some() { lines.block(head, 16)? } else { head.value(0, 16)? };
    match lines.next {
        Some(line) => Err(Refused("BadIndent", line.number)),
        None => Ok(tree),
    }
}

impl<'a> Tree<'a> {
    pub fn text(&self) -> Option<&'a str> {
        match self {
            Tree::Scalar(text, ..) => Some(text),
            Tree::Null | Tree::List(_) | Tree::Map(_) => None,
        }
    }

    pub fn number(&self) -> Option<Fraction> {
        match self {
            Tree::Scalar(text, false, _) => Fraction::from_decimal(text).ok(),
            _ => None,
        }
    }

    /// The line on which it begins, if it has one.
    pub fn line(&self) -> Option<u32> {
        match self {
            Tree::Null => None,
            Tree::Scalar(_, _, line) => Some(*line),
            Tree::List(items) => items.first().map(|item| item.0),
            Tree::Map(entries) => entries.first().map(|entry| entry.line),
        }
    }
}
