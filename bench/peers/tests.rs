// The peer of `fisca test` over examples/country: reads the same files of tests in plain Rust, makes each situation,
// works its outputs out by the rules of bench/peers/country.rs, compares them within the margins and writes the same
// report.
//
// rustc -O bench/peers/tests.rs; ./tests report RULES TESTS, or ./tests bytes RULES TESTS, which only reads the
// files, or ./tests starts RULES TESTS PROGRAM RUNS, which times PROGRAM beside that
mod country;
#[allow(dead_code)]
mod params;
#[allow(dead_code)]
mod periods;
#[path = "tests_yaml.rs"]
mod yaml;

use country::{Evaluator, HOUSEHOLD, Home, Key, Kind, Map, PERSON, Rules, Sharing, Situation, Value, fits};
use params::{Fraction, NumFault, SourceFile, reduce};
use periods::{Period, Unit};
use std::collections::HashSet;
use std::fs;
use std::io::Write as _;
use std::path::Path;
use std::process::{Command, ExitCode, Stdio};
use std::time::Instant;
use yaml::{Entry, Refused, Tree, read_yaml};

const MOST_INPUTS: usize = 100_000;
const MOST_MEMBERS: usize = 1_000;

// Situations.

fn map_in<'t, 'a>(tree: &'t Tree<'a>, line: u32, word: &'static str) -> Result<&'t [Entry<'a>], Refused> {
    match tree {
        Tree::Map(entries) => Ok(entries),
        Tree::Null | Tree::Scalar(..) | Tree::List(_) => Err(Refused(word, tree.line().unwrap_or(line))),
    }
}

/// The entity that a key names, and whether by its plural.
fn entity_of(key: &str) -> Option<(usize, bool)> {
    match key {
        "persons" => Some((PERSON, true)),
        "person" => Some((PERSON, false)),
        "households" => Some((HOUSEHOLD, true)),
        "household" => Some((HOUSEHOLD, false)),
        _ => None,
    }
}

fn role_of(key: &str) -> Option<usize> {
    match key {
        "head" => Some(0),
        "adults" => Some(1),
        "children" => Some(2),
        _ => None,
    }
}

/// The keys of an input or of outputs that name entities, each with its members' names, or nothing where they are variables.
fn sections<'t, 'a>(entries: &'t [Entry<'a>], word: &'static str) -> Result<Option<Vec<(usize, bool, &'t Entry<'a>)>>, Refused> {
    if entries.iter().all(|entry| entity_of(entry.key).is_none()) {
        return Ok(None);
    }
    let mut found: Vec<(usize, bool, &Entry)> = Vec::with_capacity(entries.len());
    for entry in entries {
        match entity_of(entry.key) {
            Some((entity, _)) if found.iter().any(|section| section.0 == entity) => return Err(Refused(word, entry.line)),
            Some((entity, is_plural)) => found.push((entity, is_plural, entry)),
            None => return Err(Refused(word, entry.line)),
        }
    }
    Ok(Some(found))
}

/// The type's value of a scalar.
fn value_of(kind: Kind, tree: &Tree<'_>) -> Option<Value> {
    match kind {
        Kind::Float => tree.number().map(Value::Number),
        Kind::Int => tree.number().filter(|number| number.denominator == 1 && i32::try_from(number.numerator).is_ok()).map(Value::Number),
        Kind::Bool => match tree.text()? {
            "true" | "True" | "TRUE" | "yes" | "on" => Some(Value::Bool(true)),
            "false" | "False" | "FALSE" | "no" | "off" => Some(Value::Bool(false)),
            _ => match tree.number()? {
                Fraction { numerator: 0, .. } => Some(Value::Bool(false)),
                Fraction { numerator: 1, denominator: 1 } => Some(Value::Bool(true)),
                _ => None,
            },
        },
        Kind::Enum(names) => names.iter().position(|name| Some(*name) == tree.text()).map(Value::Member),
    }
}

struct Given {
    key: Key,
    value: Value,
    line: u32,
}

struct Reading<'r> {
    rules: &'r Rules,
    default: Option<Period>,
    givens: Vec<Given>,
}

impl Reading<'_> {
    /// One input, for the period that is written or the default one.
    fn put(&mut self, variable: usize, member: u32, period: Option<Period>, line: u32, tree: &Tree<'_>) -> Result<(), Refused> {
        if matches!(tree, Tree::Null) {
            return Ok(());
        }
        let declared = &self.rules.variables[variable];
        let Some(period) = period else { return Err(Refused("PeriodMismatch", line)) };
        let shared = declared.sharing.is_some() && period.unit() >= declared.unit && period.unit() != Unit::Eternity;
        if !fits(declared.unit, period) && !shared {
            return Err(Refused("PeriodMismatch", line));
        }
        let Some(value) = value_of(declared.kind, tree) else { return Err(Refused("BadValue", tree.line().unwrap_or(line))) };
        let key = Key { variable, member, period };
        self.givens.push(Given { key, value, line });
        Ok(())
    }

    /// The inputs that stand at a member.
    fn variables(&mut self, entity: usize, member: u32, entries: &[Entry<'_>]) -> Result<(), Refused> {
        for entry in entries {
            if entity == HOUSEHOLD && role_of(entry.key).is_some() {
                continue;
            }
            let variable = match self.rules.places.get(entry.key) {
                Some(place) if self.rules.variables[*place].entity == entity => *place,
                _ => return Err(Refused("UnknownVariable", entry.line)),
            };
            match &entry.value {
                Tree::Map(dated) => {
                    for Entry { key, line, value } in dated {
                        self.put(variable, member, Period::read(key).ok(), *line, value)?;
                    }
                }
                value => self.put(variable, member, self.default, entry.line, value)?,
            }
        }
        Ok(())
    }
}

fn put(inputs: &mut Map<Key, Value>, line: u32, key: Key, value: Value) -> Result<(), Refused> {
    if inputs.len() >= MOST_INPUTS {
        return Err(Refused("TooMany", line));
    }
    inputs.insert(key, value);
    Ok(())
}

/// Shares a given input over the parts of its period.
fn share(rules: &Rules, inputs: &mut Map<Key, Value>, given: &Given) -> Result<(), Refused> {
    let Given { key, value, line } = given;
    let declared = &rules.variables[key.variable];
    if fits(declared.unit, key.period) {
        return put(inputs, *line, *key, *value);
    }
    let count = key.period.sub_count(declared.unit).unwrap_or(0);
    let part = |i| Key { period: key.period.sub(declared.unit, i), ..*key };
    let mut one = *value;
    if declared.sharing == Some(Sharing::Divide) {
        let Value::Number(mut rest) = *value else { return Err(Refused("BadValue", *line)) };
        let mut free = 0;
        for i in 0..count {
            match inputs.get(&part(i)) {
                Some(Value::Number(number)) => rest = rest.sub(*number).map_err(|_| Refused("BadValue", *line))?,
                Some(_) => return Err(Refused("BadValue", *line)),
                None => free += 1,
            }
        }
        if free == 0 {
            return if rest.numerator == 0 { Ok(()) } else { Err(Refused("InconsistentInput", *line)) };
        }
        let share = reduce(rest.numerator < 0, u128::from(rest.numerator.unsigned_abs()), u128::from(rest.denominator) * free);
        one = Value::Number(share.map_err(|_| Refused("BadValue", *line))?);
    }
    for i in 0..count {
        let here = part(i);
        if !inputs.contains_key(&here) {
            put(inputs, *line, here, one)?;
        }
    }
    Ok(())
}

/// The place of a name, by a table where there are many.
struct Places<'n> {
    names: &'n [String],
    table: Option<Map<&'n str, u32>>,
}

impl<'n> Places<'n> {
    fn of(names: &'n [String]) -> Places<'n> {
        let table = if names.len() > 16 { Some(names.iter().enumerate().map(|(place, name)| (name.as_str(), place as u32)).collect()) } else { None };
        Places { names, table }
    }

    fn get(&self, name: &str) -> Option<u32> {
        match &self.table {
            Some(table) => table.get(name).copied(),
            None => self.names.iter().position(|other| other == name).map(|place| place as u32),
        }
    }
}

/// The persons of the groups that are written, and groups of their own for the rest.
fn members(names: &mut [Vec<String>; 2], groups: &[(u32, &[Entry<'_>])]) -> Result<(Vec<Home>, Vec<Vec<u32>>), Refused> {
    let count = names[PERSON].len();
    let places = Places::of(&names[PERSON]);
    let mut homes: Vec<Option<Home>> = vec![None; count];
    let mut rosters: Vec<Vec<u32>> = Vec::with_capacity(groups.len());
    for (group, (_, entries)) in groups.iter().enumerate() {
        for entry in *entries {
            let Some(role) = role_of(entry.key) else { continue };
            let one;
            let held: &[(u32, Tree)] = match &entry.value {
                Tree::List(items) => items,
                Tree::Scalar(text, quoted, line) => {
                    one = [(*line, Tree::Scalar(text, *quoted, *line))];
                    &one
                }
                Tree::Null | Tree::Map(_) => return Err(Refused("BadValue", entry.line)),
            };
            for (place, (line, item)) in held.iter().enumerate() {
                let Some(name) = item.text() else { return Err(Refused("BadValue", *line)) };
                let Some(person) = places.get(name) else { return Err(Refused("UnknownPerson", *line)) };
                let home = &mut homes[person as usize];
                if home.is_some() {
                    return Err(Refused("PersonTwice", *line));
                }
                if role == 0 && place > 0 {
                    return Err(Refused("RoleFull", *line));
                }
                *home = Some(Home { group: group as u32, role });
            }
        }
        rosters.push(Vec::new());
    }
    let mut held = Vec::with_capacity(count);
    for (person, home) in homes.into_iter().enumerate() {
        let home = match home {
            Some(home) => home,
            None => {
                let name = names[PERSON][person].clone();
                names[HOUSEHOLD].push(name);
                rosters.push(Vec::new());
                Home { group: rosters.len() as u32 - 1, role: 0 }
            }
        };
        rosters[home.group as usize].push(person as u32);
        held.push(home);
    }
    Ok((held, rosters))
}

fn situation(rules: &Rules, default: Option<Period>, line: u32, tree: &Tree<'_>) -> Result<Situation, Refused> {
    let none = [];
    let entries = match tree {
        Tree::Null => &none[..],
        _ => map_in(tree, line, "BadValue")?,
    };
    let mut reading = Reading { rules, default, givens: Vec::new() };
    let mut names = [Vec::new(), Vec::new()];
    let (homes, rosters);
    match sections(entries, "UnknownEntity")? {
        None => {
            names[PERSON].push(String::from("person"));
            (homes, rosters) = members(&mut names, &[])?;
            reading.variables(PERSON, 0, entries)?;
        }
        Some(found) => {
            // the members that each section names, with what stands below each
            let mut below: Vec<(usize, u32, &[Entry])> = Vec::new();
            let mut groups: Vec<(u32, &[Entry])> = Vec::new();
            for (entity, is_plural, section) in &found {
                let inner = map_in(&section.value, section.line, "BadValue")?;
                if !is_plural {
                    names[*entity].push(section.key.to_string());
                    below.push((*entity, 0, inner));
                    continue;
                }
                for (place, member) in inner.iter().enumerate() {
                    if place >= MOST_MEMBERS {
                        return Err(Refused("TooMany", member.line));
                    }
                    names[*entity].push(member.key.to_string());
                    below.push((*entity, place as u32, map_in(&member.value, member.line, "BadValue")?));
                }
            }
            if names[PERSON].is_empty() {
                return Err(Refused("UnknownPerson", line));
            }
            groups.extend(below.iter().filter(|member| member.0 == HOUSEHOLD).map(|member| (member.1, member.2)));
            (homes, rosters) = members(&mut names, &groups)?;
            for (entity, member, entries) in below {
                reading.variables(entity, member, entries)?;
            }
        }
    }
    let mut givens = reading.givens;
    if givens.len() > 1 {
        let mut keys: HashSet<Key, country::Folds> = HashSet::default();
        for given in &givens {
            if !keys.insert(given.key) {
                return Err(Refused("InconsistentInput", given.line));
            }
        }
        let length = |given: &Given| if rules.variables[given.key.variable].unit == Unit::Day { given.key.period.sub_count(Unit::Day).ok() } else { given.key.period.months() };
        givens.sort_by_key(|given| (length(given), given.key.period.start_day(), given.key.period.unit()));
    }
    let parts = |given: &Given| given.key.period.sub_count(rules.variables[given.key.variable].unit).unwrap_or(1) as usize;
    let room = givens.iter().map(parts).sum::<usize>().min(MOST_INPUTS);
    let mut inputs = Map::with_capacity_and_hasher(room, country::Folds);
    for given in &givens {
        share(rules, &mut inputs, given)?;
    }
    let has_others = |variable: usize| names[rules.variables[variable].entity].len() > 1;
    let rows: HashSet<(usize, Period), country::Folds> = inputs.keys().filter(|key| has_others(key.variable)).map(|key| (key.variable, key.period)).collect();
    for (variable, period) in rows {
        let declared = &rules.variables[variable];
        for member in 0..names[declared.entity].len() as u32 {
            let key = Key { variable, member, period };
            if !inputs.contains_key(&key) {
                put(&mut inputs, line, key, declared.default)?;
            }
        }
    }
    Ok(Situation { names, homes, rosters, inputs })
}

// Tests.

#[derive(Clone, Copy)]
struct Margins {
    absolute: Option<Fraction>,
    relative: Option<Fraction>,
}

struct Test<'a> {
    name: Option<&'a str>,
    margins: Margins,
    situation: Situation,
    outputs: Vec<(Key, Value)>,
}

/// Whose values are expected: those of each, or of one member of an entity.
#[derive(Clone, Copy)]
enum Whom {
    Each,
    One(usize, u32),
}

/// The values that stand at a variable for a period.
fn expected(rules: &Rules, whom: Whom, count: u32, variable: usize, period: Option<Period>, line: u32, tree: &Tree<'_>, outputs: &mut Vec<(Key, Value)>) -> Result<(), Refused> {
    let declared = &rules.variables[variable];
    let Some(period) = period.filter(|period| fits(declared.unit, *period)) else { return Err(Refused("BadOutput", line)) };
    let kind = if declared.kind == Kind::Int { Kind::Float } else { declared.kind };
    let read = |line: u32, tree: &Tree<'_>| value_of(kind, tree).ok_or(Refused("BadOutput", tree.line().unwrap_or(line)));
    match (tree, whom) {
        (Tree::List(items), Whom::Each) if items.len() == count as usize => {
            for (member, (line, item)) in items.iter().enumerate() {
                outputs.push((Key { variable, member: member as u32, period }, read(*line, item)?));
            }
        }
        (Tree::List(_), _) => return Err(Refused("BadOutput", tree.line().unwrap_or(line))),
        (_, Whom::One(_, member)) => outputs.push((Key { variable, member, period }, read(line, tree)?)),
        (_, Whom::Each) => {
            let value = read(line, tree)?;
            outputs.extend((0..count).map(|member| (Key { variable, member, period }, value)));
        }
    }
    Ok(())
}

fn outputs_in(rules: &Rules, situation: &Situation, default: Option<Period>, whom: Whom, entries: &[Entry<'_>], outputs: &mut Vec<(Key, Value)>) -> Result<(), Refused> {
    for entry in entries {
        let variable = match (rules.places.get(entry.key), whom) {
            (Some(place), Whom::Each) => *place,
            (Some(place), Whom::One(entity, _)) if rules.variables[*place].entity == entity => *place,
            _ => return Err(Refused("BadOutput", entry.line)),
        };
        let count = situation.names[rules.variables[variable].entity].len() as u32;
        match &entry.value {
            Tree::Map(dated) => {
                for Entry { key, line, value } in dated {
                    expected(rules, whom, count, variable, Period::read(key).ok(), *line, value, outputs)?;
                }
            }
            value => expected(rules, whom, count, variable, default, entry.line, value, outputs)?,
        }
    }
    Ok(())
}

fn outputs(rules: &Rules, situation: &Situation, default: Option<Period>, entry: &Entry<'_>) -> Result<Vec<(Key, Value)>, Refused> {
    let entries = map_in(&entry.value, entry.line, "BadOutput")?;
    let mut outputs = Vec::with_capacity(8);
    let Some(found) = sections(entries, "BadOutput")? else {
        outputs_in(rules, situation, default, Whom::Each, entries, &mut outputs)?;
        return Ok(outputs);
    };
    for (entity, is_plural, section) in found {
        let names = &situation.names[entity];
        if !is_plural {
            if names.len() != 1 {
                return Err(Refused("BadOutput", section.line));
            }
            outputs_in(rules, situation, default, Whom::One(entity, 0), map_in(&section.value, section.line, "BadOutput")?, &mut outputs)?;
            continue;
        }
        for member in map_in(&section.value, section.line, "BadOutput")? {
            let Some(place) = names.iter().position(|name| name == member.key) else { return Err(Refused("BadOutput", member.line)) };
            outputs_in(rules, situation, default, Whom::One(entity, place as u32), map_in(&member.value, member.line, "BadOutput")?, &mut outputs)?;
        }
    }
    Ok(outputs)
}

fn margin(tree: &Tree<'_>) -> Option<Fraction> {
    tree.number().filter(|number| number.numerator >= 0)
}

fn test<'a>(rules: &Rules, line: u32, tree: &Tree<'a>) -> Result<Test<'a>, Refused> {
    let entries = map_in(tree, line, "BadTest")?;
    let (mut name, mut period, mut margins) = (None, None, Margins { absolute: None, relative: None });
    let (mut input, mut output) = (None, None);
    for entry in entries {
        let bad = || Refused("BadTest", entry.line);
        match entry.key {
            "output" => output = Some(entry),
            "input" => input = Some(entry),
            "period" => period = Some(Period::read(entry.value.text().ok_or_else(bad)?).map_err(|_| bad())?),
            "name" => name = Some(entry.value.text().ok_or_else(bad)?),
            "description" => drop(entry.value.text().ok_or_else(bad)?),
            "absolute_error_margin" => margins.absolute = Some(margin(&entry.value).ok_or_else(bad)?),
            "relative_error_margin" => margins.relative = Some(margin(&entry.value).ok_or_else(bad)?),
            "keywords" => match &entry.value {
                Tree::Scalar(..) => {}
                Tree::List(items) if items.iter().all(|item| item.1.text().is_some()) => {}
                _ => return Err(bad()),
            },
            _ => return Err(bad()),
        }
    }
    let Some(output) = output else { return Err(Refused("BadTest", tree.line().unwrap_or(line))) };
    let situation = match input {
        Some(entry) => situation(rules, period, entry.line, &entry.value)?,
        None => situation(rules, period, tree.line().unwrap_or(line), &Tree::Null)?,
    };
    let outputs = outputs(rules, &situation, period, output)?;
    Ok(Test { name, margins, situation, outputs })
}

// The report.

fn size(number: Fraction) -> Fraction {
    Fraction { numerator: number.numerator.abs(), ..number }
}

/// Whether a value is near enough to the expected one.
fn passes(margins: Margins, expected: Value, got: Value) -> Result<bool, NumFault> {
    let (Value::Number(expected), Value::Number(got)) = (expected, got) else { return Ok(expected == got) };
    let difference = size(got.sub(expected)?);
    let relative = match margins.relative {
        Some(margin) => Some(size(margin.mul(expected)?)),
        None => None,
    };
    Ok(match (margins.absolute, relative) {
        (None, None) => difference.numerator == 0,
        (absolute, relative) => absolute.is_none_or(|bound| difference <= bound) && relative.is_none_or(|bound| difference <= bound),
    })
}

fn write_number(number: Fraction, text: &mut String) {
    use std::fmt::Write as _;
    let (twos, mut fives, mut rest) = (number.denominator.trailing_zeros(), 0, number.denominator >> number.denominator.trailing_zeros());
    while rest % 5 == 0 {
        rest /= 5;
        fives += 1;
    }
    if number.denominator == 1 {
        write!(text, "{}", number.numerator).unwrap();
    } else if rest == 1 && twos.max(fives) <= 18 {
        let places = twos.max(fives);
        let one = 10u128.pow(places);
        let digits = u128::from(number.numerator.unsigned_abs()) * (one / u128::from(number.denominator));
        let sign = if number.numerator < 0 { "-" } else { "" };
        write!(text, "{sign}{}.{:0width$}", digits / one, digits % one, width = places as usize).unwrap();
    } else {
        write!(text, "{}/{}", number.numerator, number.denominator).unwrap();
    }
}

fn write_value(rules: &Rules, variable: usize, value: Value, text: &mut String) {
    match (value, rules.variables[variable].kind) {
        (Value::Number(number), _) => write_number(number, text),
        (Value::Bool(truth), _) => text.push_str(if truth { "true" } else { "false" }),
        (Value::Member(place), Kind::Enum(names)) => text.push_str(names[place]),
        (Value::Member(_), _) => unreachable!(),
    }
}

fn write_key(rules: &Rules, situation: &Situation, key: &Key, text: &mut String) {
    let declared = &rules.variables[key.variable];
    text.push_str(declared.name);
    text.push(' ');
    text.push_str(&situation.names[declared.entity][key.member as usize]);
    text.push(' ');
    text.push_str(&key.period.text());
}

/// Works a test out, and writes what is told of it.
fn report(rules: &Rules, number: usize, test: &Test<'_>, lines: &mut String, text: &mut String) -> bool {
    lines.clear();
    let mut evaluator = Evaluator::new(rules, &test.situation);
    let mut all = true;
    for (key, expected) in &test.outputs {
        let verdict = evaluator.value(*key).map(|got| (got, passes(test.margins, *expected, got)));
        if matches!(verdict, Ok((_, Ok(true)))) {
            continue;
        }
        all = false;
        lines.push_str("  ");
        write_key(rules, &test.situation, key, lines);
        lines.push_str(": ");
        match verdict {
            Ok((got, Ok(_))) => {
                lines.push_str("expected ");
                write_value(rules, key.variable, *expected, lines);
                lines.push_str(", got ");
                write_value(rules, key.variable, got, lines);
            }
            Ok((_, Err(_))) => lines.push_str("TooWide"),
            Err(fault) => {
                lines.push_str(fault.kind.name());
                lines.push(' ');
                write_key(rules, &test.situation, &fault.key, lines);
            }
        }
        lines.push('\n');
    }
    text.push_str(if all { "ok " } else { "failed " });
    match test.name {
        Some(name) => text.push_str(name),
        None => text.push_str(&format!("test {number}")),
    }
    text.push('\n');
    text.push_str(lines);
    all
}

/// The files of a folder and of those in it, in no order.
fn files_below(folder: &Path, prefix: &str, files: &mut Vec<SourceFile>) {
    for entry in fs::read_dir(folder).unwrap() {
        let entry = entry.unwrap();
        let name = format!("{prefix}{}", entry.file_name().to_str().unwrap());
        if entry.file_type().unwrap().is_dir() {
            files_below(&entry.path(), &format!("{name}/"), files);
        } else if name == "entities.py" || name.starts_with("variables/") || name.starts_with("parameters/") {
            files.push(SourceFile { text: fs::read_to_string(entry.path()).unwrap(), path: name });
        }
    }
}

/// The nanoseconds that a program takes from its start to its end.
fn seen(program: &str, words: &[&str]) -> u128 {
    let start = Instant::now();
    let mut child = Command::new(program).args(words).stdout(Stdio::null()).spawn().unwrap();
    child.wait().unwrap();
    start.elapsed().as_nanos()
}

/// The least time of a program that runs tests, and of this one where it only reads the files, in turns.
fn starts(program: &str, rules: &str, tests: &str, runs: u32) {
    let own = std::env::current_exe().unwrap();
    let own = own.to_str().unwrap();
    let (mut ours, mut bytes) = (u128::MAX, u128::MAX);
    for _ in 0..runs {
        ours = ours.min(seen(program, &["test", rules, tests]));
        bytes = bytes.min(seen(own, &["bytes", rules, tests]));
    }
    println!("{ours} {bytes}");
}

fn main() -> ExitCode {
    let words: Vec<String> = std::env::args().skip(1).collect();
    if words[0] == "starts" {
        starts(&words[3], &words[1], &words[2], words[4].parse().unwrap());
        return ExitCode::SUCCESS;
    }
    let mut files = Vec::new();
    files_below(Path::new(&words[1]), "", &mut files);
    let text = fs::read_to_string(&words[2]).unwrap();
    if words[0] == "bytes" {
        println!("{}", files.iter().map(|file| file.text.len()).sum::<usize>() + text.len());
        return ExitCode::SUCCESS;
    }
    let rules = country::rules(&files);
    let read = read_yaml(&text).and_then(|tree| match &tree {
        Tree::List(items) => items.iter().map(|(line, item)| test(&rules, *line, item)).collect::<Result<Vec<Test>, Refused>>(),
        tree => test(&rules, 1, tree).map(|test| vec![test]),
    });
    let tests = match read {
        Ok(tests) => tests,
        Err(Refused(word, line)) => {
            eprintln!("fisca: {}:{line}: {word}", words[2]);
            return ExitCode::from(3);
        }
    };
    let mut output = std::io::BufWriter::new(std::io::stdout().lock());
    let (mut passed, mut failed, mut lines, mut written) = (0, 0, String::new(), String::new());
    for (place, test) in tests.iter().enumerate() {
        written.clear();
        if report(&rules, place + 1, test, &mut lines, &mut written) {
            passed += 1;
        } else {
            failed += 1;
        }
        output.write_all(written.as_bytes()).unwrap();
    }
    writeln!(output, "passed {passed}, failed {failed}").unwrap();
    output.flush().unwrap();
    ExitCode::from(u8::from(failed > 0))
}
