// The peer of `fisca_bench modules`: a reader of the same modules into the same tree, in plain Rust, written for speed.
//
// rustc -O bench/peers/modules.rs; ./modules NAME COUNT, or ./modules FILE for a line of each of the texts in a file
use std::time::Instant;

const LONGEST: usize = 1 << 20;
const HIGHEST: u32 = 120;

#[derive(Clone, Copy, PartialEq, Eq)]
enum Mark {
    Open, Close, OpenList, CloseList, OpenMap, CloseMap, Comma, Colon, Dot, Equal, EqualEqual, NotEqual, Less, LessEqual,
    Greater, GreaterEqual, Bar, Ampersand, Plus, Minus, Star, Slash, Tilde, Power, WholeDivision, Augmented,
}

#[derive(Clone, Copy, PartialEq, Eq)]
enum Class {
    Word,
    Number,
    Quoted,
    Mark(Mark),
}

#[derive(Clone, Copy)]
struct Token {
    start: usize,
    end: usize,
    line: usize,
    class: Class,
    indent: Option<usize>,
}

#[derive(Clone, Copy, Debug)]
enum Kind {
    Syntax,
    Indent,
    Unsupported,
    TooDeep,
    TooLong,
}

#[derive(Clone, Copy, Debug)]
struct Fault {
    line: usize,
    kind: Kind,
}

#[allow(dead_code)] // signs are in the tree, and not in the checksum
enum Expr<'a> {
    Name(&'a str),
    Number(&'a str),
    Text(&'a str),
    Bracketed(Mark, Arguments<'a>),
    Attribute(Box<Expr<'a>>, &'a str),
    Applied(Box<Expr<'a>>, Mark, Arguments<'a>),
    Prefixed(Mark, Box<Expr<'a>>),
    Binary(Mark, Box<Expr<'a>>, Box<Expr<'a>>),
    Compare(Mark, Box<Expr<'a>>, Box<Expr<'a>>),
}

struct Arguments<'a> {
    items: Vec<Argument<'a>>,
    comma: bool,
}

enum Argument<'a> {
    Positional(Expr<'a>),
    Keyword(&'a str, Expr<'a>),
    Entry(Expr<'a>, Expr<'a>),
}

struct Assignment<'a> {
    line: usize,
    name: &'a str,
    value: Expr<'a>,
}

struct Member<'a> {
    line: usize,
    name: &'a str,
    text: &'a str,
}

struct Formula<'a> {
    line: usize,
    start: (u16, u8, u8),
    names: (&'a str, &'a str, Option<&'a str>),
    locals: Vec<Assignment<'a>>,
    returned: (usize, Expr<'a>),
}

enum Item<'a> {
    Attribute(Assignment<'a>),
    Formula(Formula<'a>),
}

enum Statement<'a> {
    Entity(Assignment<'a>),
    Entities(Assignment<'a>),
    Enum(usize, &'a str, Vec<Member<'a>>),
    Variable(usize, &'a str, Vec<Item<'a>>),
}

// ---- tokens

fn is_word_byte(b: u8) -> bool {
    b.is_ascii_alphanumeric() || b == b'_'
}

/// The length of a text in quotes.
fn quoted(text: &[u8]) -> Option<usize> {
    let quote = text[0];
    let tripled = text.len() >= 3 && text[1] == quote && text[2] == quote;
    let mut at = if tripled { 3 } else { 1 };
    while at < text.len() {
        match text[at] {
            b'\\' => at += if text[at + 1..].starts_with(b"\r\n") { 3 } else { 2 },
            b'\n' if !tripled => return None,
            b if b == quote && !tripled => return Some(at + 1),
            b if b == quote && text[at..].len() >= 3 && text[at + 1] == quote && text[at + 2] == quote => return Some(at + 3),
            _ => at += 1,
        }
    }
    None
}

/// The length of a number.
fn number(text: &[u8]) -> usize {
    let digits = |mut at: usize| {
        while at < text.len() && (text[at].is_ascii_digit() || text[at] == b'_' && at + 1 < text.len() && text[at + 1].is_ascii_digit() && at > 0 && text[at - 1].is_ascii_digit()) {
            at += 1;
        }
        at
    };
    let at = digits(0);
    if at < text.len() && text[at] == b'.' { digits(at + 1) } else { at }
}

fn mark(text: &[u8]) -> Option<(Mark, usize)> {
    let second = text.get(1).copied().unwrap_or(0);
    Some(match (text[0], second) {
        (b'=', b'=') => (Mark::EqualEqual, 2),
        (b'!', b'=') => (Mark::NotEqual, 2),
        (b'<', b'=') => (Mark::LessEqual, 2),
        (b'>', b'=') => (Mark::GreaterEqual, 2),
        (b'*', b'*') => (Mark::Power, 2),
        (b'/', b'/') => (Mark::WholeDivision, 2),
        (b'+' | b'-' | b'*' | b'/' | b'|' | b'&', b'=') => (Mark::Augmented, 2),
        (b'(', _) => (Mark::Open, 1),
        (b')', _) => (Mark::Close, 1),
        (b'[', _) => (Mark::OpenList, 1),
        (b']', _) => (Mark::CloseList, 1),
        (b'{', _) => (Mark::OpenMap, 1),
        (b'}', _) => (Mark::CloseMap, 1),
        (b',', _) => (Mark::Comma, 1),
        (b':', _) => (Mark::Colon, 1),
        (b'.', _) => (Mark::Dot, 1),
        (b'=', _) => (Mark::Equal, 1),
        (b'<', _) => (Mark::Less, 1),
        (b'>', _) => (Mark::Greater, 1),
        (b'|', _) => (Mark::Bar, 1),
        (b'&', _) => (Mark::Ampersand, 1),
        (b'+', _) => (Mark::Plus, 1),
        (b'-', _) => (Mark::Minus, 1),
        (b'*', _) => (Mark::Star, 1),
        (b'/', _) => (Mark::Slash, 1),
        (b'~', _) => (Mark::Tilde, 1),
        _ => return None,
    })
}

fn tokens(text: &[u8]) -> Result<Vec<Token>, Fault> {
    if text.len() > LONGEST {
        return Err(Fault { line: 1, kind: Kind::TooLong });
    }
    let mut found: Vec<Token> = Vec::new();
    let mut levels: Vec<usize> = Vec::new();
    let (mut at, mut line, mut depth) = (0, 1, 0usize);
    // how many spaces stand before, where the line has had no token
    let mut margin = Some(0);
    let mut tab = false;
    while at < text.len() {
        let b = text[at];
        let (class, length) = match b {
            b' ' | b'\t' => {
                let length = text[at..].iter().take_while(|b| **b == b' ' || **b == b'\t').count();
                if margin.is_some() {
                    margin = Some(length);
                    tab = text[at..at + length].contains(&b'\t');
                }
                at += length;
                continue;
            }
            b'#' => {
                at += text[at..].iter().position(|b| *b == b'\n').unwrap_or(text.len() - at);
                continue;
            }
            b'\n' | b'\r' => {
                let length = if b == b'\n' { 1 } else { 2 };
                if length == 2 && text.get(at + 1) != Some(&b'\n') {
                    return Err(Fault { line, kind: Kind::Syntax });
                }
                at += length;
                line += 1;
                margin = if depth == 0 { Some(0) } else { None };
                tab = false;
                continue;
            }
            b'0' if matches!(text.get(at + 1), Some(b'0'..=b'9' | b'_')) => return Err(Fault { line, kind: Kind::Syntax }),
            b'0'..=b'9' => (Class::Number, number(&text[at..])),
            b'.' if text.get(at + 1).is_some_and(u8::is_ascii_digit) => (Class::Number, number(&text[at..])),
            b'"' | b'\'' => (Class::Quoted, quoted(&text[at..]).ok_or(Fault { line, kind: Kind::Syntax })?),
            _ if is_word_byte(b) => {
                let length = text[at..].iter().take_while(|b| is_word_byte(**b)).count();
                let quote = matches!(text.get(at + length), Some(b'"' | b'\''));
                if quote && length == 1 && matches!(b, b'u' | b'U' | b'r' | b'R') {
                    (Class::Quoted, 1 + quoted(&text[at + 1..]).ok_or(Fault { line, kind: Kind::Syntax })?)
                } else if quote && length <= 2 && text[at..at + length].iter().any(|b| matches!(b, b'f' | b'F')) {
                    return Err(Fault { line, kind: Kind::Unsupported });
                } else {
                    (Class::Word, length)
                }
            }
            b'%' | b'\\' => return Err(Fault { line, kind: Kind::Unsupported }),
            _ => {
                let (mark, length) = mark(&text[at..]).ok_or(Fault { line, kind: Kind::Syntax })?;
                match mark {
                    Mark::Open | Mark::OpenList | Mark::OpenMap => depth += 1,
                    Mark::Close | Mark::CloseList | Mark::CloseMap => depth = depth.saturating_sub(1),
                    _ => {}
                }
                (Class::Mark(mark), length)
            }
        };
        let indent = margin.take();
        if let Some(column) = indent {
            if tab {
                return Err(Fault { line, kind: Kind::Indent });
            }
            if column > levels.last().copied().unwrap_or(0) {
                levels.push(column);
            } else {
                while levels.last().copied().unwrap_or(0) > column {
                    levels.pop();
                }
                if levels.last().copied().unwrap_or(0) != column {
                    return Err(Fault { line, kind: Kind::Indent });
                }
            }
        }
        let begun = line;
        if class == Class::Quoted {
            line += text[at..at + length].iter().filter(|b| **b == b'\n').count();
        }
        match found.last_mut() {
            // texts side by side are one
            Some(last) if class == Class::Quoted && indent.is_none() && last.class == Class::Quoted => last.end = at + length,
            _ => found.push(Token { start: at, end: at + length, line: begun, class, indent }),
        }
        at += length;
    }
    Ok(found)
}

// ---- expressions

fn is_keyword(word: &str) -> bool {
    matches!(
        word,
        "as" | "if" | "in" | "is" | "or" | "and" | "def" | "del" | "for" | "not" | "try" | "elif" | "else" | "from" | "pass" | "True"
            | "with" | "async" | "await" | "break" | "class" | "False" | "raise" | "while" | "yield" | "assert" | "except" | "global"
            | "import" | "lambda" | "return" | "finally" | "continue" | "nonlocal"
    )
}

fn is_left_out(word: &str) -> bool {
    matches!(word, "if" | "elif" | "else" | "for" | "while" | "and" | "or" | "not")
}

#[derive(Clone, Copy, PartialEq, Eq)]
enum Place {
    Alone,
    InList,
    InCall,
    BehindKeyword,
    InMap,
}

struct Line<'a, 't> {
    text: &'a str,
    tokens: &'t [Token],
    at: usize,
    is_formula: bool,
}

type Read<T> = Result<T, Fault>;

impl<'a, 't> Line<'a, 't> {
    fn next(&self) -> Option<Token> {
        self.tokens.get(self.at).copied()
    }

    fn slice(&self, token: Token) -> &'a str {
        &self.text[token.start..token.end]
    }

    fn begins(&self, mark: Mark) -> bool {
        matches!(self.next(), Some(token) if token.class == Class::Mark(mark))
    }

    fn fault<T>(&self, kind: Kind) -> Read<T> {
        let token = self.next().or(self.tokens.last().copied());
        Err(Fault { line: token.map_or(1, |token| token.line), kind })
    }

    fn misfit<T>(&self) -> Read<T> {
        match self.next() {
            Some(token) if token.class == Class::Word && is_left_out(self.slice(token)) => self.fault(Kind::Unsupported),
            Some(Token { class: Class::Mark(Mark::Power | Mark::WholeDivision), .. }) => self.fault(Kind::Unsupported),
            _ => self.fault(Kind::Syntax),
        }
    }

    fn expect(&mut self, mark: Mark) -> Read<()> {
        if !self.begins(mark) {
            return self.misfit();
        }
        self.at += 1;
        Ok(())
    }

    fn name(&mut self) -> Read<&'a str> {
        match self.next() {
            Some(token) if token.class == Class::Word && !is_keyword(self.slice(token)) => {
                self.at += 1;
                Ok(self.slice(token))
            }
            _ => self.fault(Kind::Syntax),
        }
    }

    /// An expression at a level or tighter, and its height.
    fn read(&mut self, limit: u32, least: u8) -> Read<(Expr<'a>, u32)> {
        if limit == 0 {
            return self.fault(Kind::TooDeep);
        }
        let first = self.operand(limit)?;
        let left = self.onward(limit, least.max(1), first)?;
        if least > 0 {
            return Ok(left);
        }
        let Some(mark) = self.comparison() else {
            return Ok(left);
        };
        if left.1 >= limit {
            return self.fault(Kind::TooDeep);
        }
        self.at += 1;
        let right = self.read(limit - 1, 1)?;
        if self.comparison().is_some() {
            return self.fault(Kind::Unsupported);
        }
        Ok((Expr::Compare(mark, Box::new(left.0), Box::new(right.0)), left.1.max(right.1) + 1))
    }

    fn comparison(&self) -> Option<Mark> {
        match self.next()?.class {
            Class::Mark(
                mark @ (Mark::Less | Mark::LessEqual | Mark::Greater | Mark::GreaterEqual | Mark::EqualEqual | Mark::NotEqual),
            ) => Some(mark),
            _ => None,
        }
    }

    fn operand(&mut self, limit: u32) -> Read<(Expr<'a>, u32)> {
        let Some(token) = self.next() else {
            return self.fault(Kind::Syntax);
        };
        let slice = self.slice(token);
        let atom = match token.class {
            Class::Word if !is_keyword(slice) || slice == "True" || slice == "False" => Expr::Name(slice),
            Class::Word => return self.misfit(),
            Class::Number => Expr::Number(slice),
            Class::Quoted => Expr::Text(slice),
            Class::Mark(mark) => {
                let (end, place) = match mark {
                    Mark::Plus | Mark::Minus | Mark::Tilde => {
                        self.at += 1;
                        let (inside, height) = self.read(limit - 1, 5)?;
                        return Ok((Expr::Prefixed(mark, Box::new(inside)), height + 1));
                    }
                    Mark::Open => (Mark::Close, if self.is_formula { Place::Alone } else { Place::InList }),
                    Mark::OpenList => (Mark::CloseList, Place::InList),
                    Mark::OpenMap if !self.is_formula => (Mark::CloseMap, Place::InMap),
                    _ => return self.misfit(),
                };
                self.at += 1;
                let (inside, height) = self.series(limit - 1, place, end)?;
                return Ok((Expr::Bracketed(mark, inside), height + 1));
            }
        };
        self.at += 1;
        Ok((atom, 1))
    }

    fn onward(&mut self, limit: u32, least: u8, first: (Expr<'a>, u32)) -> Read<(Expr<'a>, u32)> {
        let (mut left, mut height) = first;
        while let Some(Token { class: Class::Mark(mark), .. }) = self.next() {
            let binds = match mark {
                Mark::Dot | Mark::Open | Mark::OpenList => 6,
                Mark::Star | Mark::Slash => 4,
                Mark::Plus | Mark::Minus => 3,
                Mark::Ampersand => 2,
                Mark::Bar => 1,
                _ => 0,
            };
            if binds < least {
                break;
            }
            if height >= limit {
                return self.fault(Kind::TooDeep);
            }
            self.at += 1;
            match mark {
                Mark::Dot => {
                    left = Expr::Attribute(Box::new(left), self.name()?);
                    height += 1;
                }
                Mark::Open | Mark::OpenList => {
                    let (end, place) = if mark == Mark::Open { (Mark::Close, Place::InCall) } else { (Mark::CloseList, Place::Alone) };
                    let (inside, inner) = self.series(limit - 1, place, end)?;
                    left = Expr::Applied(Box::new(left), mark, inside);
                    height = height.max(inner) + 1;
                }
                _ => {
                    let (right, inner) = self.read(limit - 1, binds + 1)?;
                    left = Expr::Binary(mark, Box::new(left), Box::new(right));
                    height = height.max(inner) + 1;
                }
            }
        }
        Ok((left, height))
    }

    fn series(&mut self, limit: u32, mut place: Place, end: Mark) -> Read<(Arguments<'a>, u32)> {
        let mut items = Vec::new();
        let mut height = 0;
        loop {
            if place != Place::Alone && self.begins(end) {
                self.at += 1;
                return Ok((Arguments { items, comma: true }, height));
            }
            let (argument, inner) = self.argument(limit, place)?;
            height = height.max(inner);
            if let Argument::Keyword(..) = argument {
                place = Place::BehindKeyword;
            }
            items.push(argument);
            if place == Place::Alone || !self.begins(Mark::Comma) {
                self.expect(end)?;
                return Ok((Arguments { items, comma: false }, height));
            }
            self.at += 1;
        }
    }

    fn argument(&mut self, limit: u32, place: Place) -> Read<(Argument<'a>, u32)> {
        if let (Some(token), Some(Token { class: Class::Mark(Mark::Equal), .. })) = (self.next(), self.tokens.get(self.at + 1)) {
            if token.class == Class::Word {
                if place != Place::InCall && place != Place::BehindKeyword || is_keyword(self.slice(token)) {
                    return self.misfit();
                }
                self.at += 2;
                let (value, height) = self.read(limit, 0)?;
                return Ok((Argument::Keyword(self.slice(token), value), height));
            }
        }
        if place == Place::BehindKeyword {
            return self.misfit();
        }
        let (first, height) = self.read(limit, 0)?;
        if place != Place::InMap {
            return Ok((Argument::Positional(first), height));
        }
        self.expect(Mark::Colon)?;
        let (value, inner) = self.read(limit, 0)?;
        Ok((Argument::Entry(first, value), height.max(inner)))
    }

    /// The expression up to the line's end.
    fn whole(&mut self, is_formula: bool) -> Read<Expr<'a>> {
        self.is_formula = is_formula;
        let (found, _) = self.read(HIGHEST, 0)?;
        self.ended()?;
        Ok(found)
    }

    fn ended(&self) -> Read<()> {
        if self.at < self.tokens.len() { self.misfit() } else { Ok(()) }
    }
}

// ---- modules

struct Reader<'a, 't> {
    text: &'a str,
    tokens: &'t [Token],
    at: usize,
}

/// From when on a formula of this name is in force.
fn start_of(name: &str) -> Option<(u16, u8, u8)> {
    let mut parts = name.strip_prefix("formula")?.split('_');
    if parts.next() != Some("") {
        return None;
    }
    let mut part = |digits: usize| match parts.next() {
        None => Some(1),
        Some(text) if text.len() == digits && text.bytes().all(|b| b.is_ascii_digit()) => text.parse::<u16>().ok(),
        Some(_) => None,
    };
    let start = (part(4)?, part(2)? as u8, part(2)? as u8);
    (parts.next().is_none() && (1..=12).contains(&start.1) && (1..=31).contains(&start.2)).then_some(start)
}

impl<'a, 't> Reader<'a, 't> {
    /// The next line, if it stands at this indentation.
    fn line(&mut self, indent: usize) -> Read<Option<Line<'a, 't>>> {
        let Some(first) = self.tokens.get(self.at) else {
            return Ok(None);
        };
        let column = first.indent.unwrap_or(0);
        if column < indent {
            return Ok(None);
        }
        if column > indent {
            return Err(Fault { line: first.line, kind: Kind::Indent });
        }
        let begin = self.at;
        self.at += 1;
        while self.at < self.tokens.len() && self.tokens[self.at].indent.is_none() {
            self.at += 1;
        }
        Ok(Some(Line { text: self.text, tokens: &self.tokens[begin..self.at], at: 0, is_formula: false }))
    }

    fn deeper(&self, indent: usize) -> Read<usize> {
        match self.tokens.get(self.at) {
            Some(token) if token.indent.unwrap_or(0) > indent => Ok(token.indent.unwrap_or(0)),
            Some(token) => Err(Fault { line: token.line, kind: Kind::Syntax }),
            None => Err(Fault { line: self.tokens.last().map_or(1, |token| token.line), kind: Kind::Syntax }),
        }
    }

    fn members(&mut self, indent: usize) -> Read<Vec<Member<'a>>> {
        let inner = self.deeper(indent)?;
        let mut members = Vec::new();
        while let Some(mut line) = self.line(inner)? {
            let first = line.tokens[0];
            if first.class == Class::Quoted && line.tokens.len() == 1 || first.class == Class::Word && line.slice(first) == "pass" {
                continue;
            }
            let name = line.name()?;
            line.expect(Mark::Equal)?;
            match line.next() {
                Some(token) if token.class == Class::Quoted && line.tokens.len() == 3 => {
                    members.push(Member { line: first.line, name, text: line.slice(token) });
                }
                _ => return line.fault(Kind::Unsupported),
            }
        }
        Ok(members)
    }

    fn items(&mut self, indent: usize) -> Read<Vec<Item<'a>>> {
        let inner = self.deeper(indent)?;
        let mut items = Vec::new();
        while let Some(mut line) = self.line(inner)? {
            let first = line.tokens[0];
            match first.class {
                Class::Quoted if line.tokens.len() == 1 => {}
                Class::Word => match line.slice(first) {
                    "pass" => {}
                    "def" => items.push(Item::Formula(self.formula(line, inner)?)),
                    _ => {
                        let name = line.name()?;
                        line.expect(Mark::Equal)?;
                        items.push(Item::Attribute(Assignment { line: first.line, name, value: line.whole(false)? }));
                    }
                },
                _ => return line.fault(Kind::Unsupported),
            }
        }
        Ok(items)
    }

    fn formula(&mut self, mut line: Line<'a, 't>, indent: usize) -> Read<Formula<'a>> {
        let begun = line.tokens[0].line;
        line.at = 1;
        let name = line.name()?;
        let Some(start) = start_of(name) else {
            line.at -= 1;
            return line.fault(Kind::Unsupported);
        };
        line.expect(Mark::Open)?;
        let entity = line.name()?;
        line.expect(Mark::Comma)?;
        let period = line.name()?;
        let mut parameters = None;
        if line.begins(Mark::Comma) {
            line.at += 1;
            if !line.begins(Mark::Close) {
                parameters = Some(line.name()?);
                line.at += usize::from(line.begins(Mark::Comma));
            }
        }
        if entity == period || parameters == Some(entity) || parameters == Some(period) {
            return line.fault(Kind::Syntax);
        }
        line.expect(Mark::Close)?;
        line.expect(Mark::Colon)?;
        line.ended()?;
        let inner = self.deeper(indent)?;
        let mut locals = Vec::new();
        let mut is_first = true;
        while let Some(mut line) = self.line(inner)? {
            let first = line.tokens[0];
            match first.class {
                Class::Quoted if is_first && line.tokens.len() == 1 => {}
                Class::Word if line.slice(first) == "return" => {
                    line.at = 1;
                    let value = line.whole(true)?;
                    if let Some(line) = self.line(inner)? {
                        return line.fault(Kind::Unsupported);
                    }
                    return Ok(Formula { line: begun, start, names: (entity, period, parameters), locals, returned: (first.line, value) });
                }
                Class::Word => {
                    let name = line.name()?;
                    line.expect(Mark::Equal)?;
                    locals.push(Assignment { line: first.line, name, value: line.whole(true)? });
                }
                _ => return line.fault(Kind::Unsupported),
            }
            is_first = false;
        }
        Err(Fault { line: self.tokens.get(self.at).or(self.tokens.last()).map_or(1, |token| token.line), kind: Kind::Syntax })
    }

    fn class(&mut self, mut line: Line<'a, 't>) -> Read<Statement<'a>> {
        let begun = line.tokens[0].line;
        line.at = 1;
        let name = line.name()?;
        line.expect(Mark::Open)?;
        let base = line.name()?;
        line.expect(Mark::Close)?;
        line.expect(Mark::Colon)?;
        line.ended()?;
        match base {
            "Enum" => Ok(Statement::Enum(begun, name, self.members(0)?)),
            "Variable" => Ok(Statement::Variable(begun, name, self.items(0)?)),
            _ => Err(Fault { line: begun, kind: Kind::Unsupported }),
        }
    }

    fn module(&mut self) -> Read<Vec<Statement<'a>>> {
        let mut statements = Vec::new();
        while let Some(mut line) = self.line(0)? {
            let first = line.tokens[0];
            match first.class {
                Class::Quoted if line.tokens.len() == 1 => {}
                Class::Word => match line.slice(first) {
                    "import" | "from" => {}
                    "class" => statements.push(self.class(line)?),
                    _ => {
                        let name = line.name()?;
                        line.expect(Mark::Equal)?;
                        let assigned = Assignment { line: first.line, name, value: line.whole(false)? };
                        statements.push(match &assigned.value {
                            Expr::Applied(called, Mark::Open, _) if matches!(**called, Expr::Name("build_entity")) => Statement::Entity(assigned),
                            Expr::Bracketed(Mark::OpenList, names)
                                if name == "entities" && names.items.iter().all(|item| matches!(item, Argument::Positional(Expr::Name(_)))) =>
                            {
                                Statement::Entities(assigned)
                            }
                            _ => return Err(Fault { line: first.line, kind: Kind::Unsupported }),
                        });
                    }
                },
                _ => return line.fault(Kind::Unsupported),
            }
        }
        Ok(statements)
    }
}

fn read_module(text: &str) -> Result<Vec<Statement<'_>>, Fault> {
    let tokens = tokens(text.as_bytes())?;
    Reader { text, tokens: &tokens, at: 0 }.module()
}

// ---- the checksum: what is in a module, with lines and lengths

fn expression(expr: &Expr<'_>) -> u64 {
    match expr {
        Expr::Name(slice) | Expr::Number(slice) | Expr::Text(slice) => slice.len() as u64,
        Expr::Bracketed(_, inside) => 1 + arguments(inside),
        Expr::Attribute(inside, name) => 1 + expression(inside) + name.len() as u64,
        Expr::Applied(inside, _, behind) => 1 + expression(inside) + arguments(behind),
        Expr::Prefixed(_, inside) => 1 + expression(inside),
        Expr::Binary(_, left, right) | Expr::Compare(_, left, right) => 1 + expression(left) + expression(right),
    }
}

fn arguments(inside: &Arguments<'_>) -> u64 {
    u64::from(inside.comma) + inside.items.iter().map(argument).sum::<u64>()
}

fn argument(argument: &Argument<'_>) -> u64 {
    match argument {
        Argument::Positional(value) => expression(value),
        Argument::Keyword(key, value) => key.len() as u64 + expression(value),
        Argument::Entry(key, value) => expression(key) + expression(value),
    }
}

fn assignment(assigned: &Assignment<'_>) -> u64 {
    assigned.line as u64 + assigned.name.len() as u64 + expression(&assigned.value)
}

fn formula(formula: &Formula<'_>) -> u64 {
    let (entity, period, parameters) = formula.names;
    let start = u64::from(formula.start.0) + u64::from(formula.start.1) + u64::from(formula.start.2);
    let names = (entity.len() + period.len() + parameters.map_or(0, str::len)) as u64;
    let returned = formula.returned.0 as u64 + expression(&formula.returned.1);
    formula.line as u64 + start + names + formula.locals.iter().map(assignment).sum::<u64>() + returned
}

fn statement(statement: &Statement<'_>) -> u64 {
    match statement {
        Statement::Entity(assigned) | Statement::Entities(assigned) => assignment(assigned),
        Statement::Enum(line, name, members) => {
            *line as u64 + name.len() as u64 + members.iter().map(|m| (m.line + m.name.len() + m.text.len()) as u64).sum::<u64>()
        }
        Statement::Variable(line, name, items) => {
            let of_items = items.iter().map(|item| match item {
                Item::Attribute(assigned) => assignment(assigned),
                Item::Formula(found) => formula(found),
            });
            *line as u64 + name.len() as u64 + of_items.sum::<u64>()
        }
    }
}

fn main() {
    let words: Vec<String> = std::env::args().skip(1).collect();
    if let [path] = words.as_slice() {
        for text in std::fs::read_to_string(path).unwrap().split('\u{1e}') {
            match read_module(text) {
                Ok(statements) => println!("{}", statements.iter().map(statement).sum::<u64>()),
                Err(fault) => println!("! {} {:?}", fault.line, fault.kind),
            }
        }
        return;
    }
    let text = std::fs::read_to_string(format!("bench/out/modules/{}.py", words[0])).unwrap();
    let count: u64 = words[1].parse().unwrap();
    let mut checksum = 0;
    let start = Instant::now();
    for _ in 0..count {
        checksum = match read_module(&text) {
            Ok(statements) => statements.iter().map(statement).sum(),
            Err(_) => u64::MAX,
        };
    }
    println!("{} {checksum}", start.elapsed().as_nanos());
}
