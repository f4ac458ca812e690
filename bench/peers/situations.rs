// The peer of `fisca_bench situations`: the same work in plain Rust, with the same tables under the same hash:
// persons, groups and roles by name, inputs as they are given, in order of length, start and unit, shared over their
// months, and defaults beside.
//
// rustc -O bench/peers/situations.rs; ./situations OPERATION NAME COUNT
#[allow(dead_code)]
mod numbers;
#[allow(dead_code)]
mod periods;

use numbers::Fraction;
use periods::{FoldHasher, Period, Unit};
use std::collections::{HashMap, HashSet};
use std::hash::{BuildHasher, Hash};
use std::time::Instant;

/// Makes the hasher of Rattle's maps.
#[derive(Clone, Copy, Default)]
struct Folds;

impl BuildHasher for Folds {
    type Hasher = FoldHasher;

    fn build_hasher(&self) -> FoldHasher {
        FoldHasher { state: 0x243f_6a88_85a3_08d3 }
    }
}

type Map<K, V> = HashMap<K, V, Folds>;

const LIMIT: usize = 100_000;

/// What a YAML text holds: of the forms that the measured texts have.
enum Tree<'a> {
    Null,
    Scalar(&'a str),
    List(Vec<&'a str>),
    Map(Vec<Entry<'a>>),
}

struct Entry<'a> {
    key: &'a str,
    line: usize,
    value: Tree<'a>,
}

/// The map at a column from a line on; answers the line behind it.
fn map_at<'a>(lines: &[&'a str], first: usize, column: usize) -> (Vec<Entry<'a>>, usize) {
    let (mut entries, mut at) = (Vec::new(), first);
    while at < lines.len() {
        let text = lines[at].trim_start();
        if lines[at].len() - text.len() != column {
            break;
        }
        let (key, rest) = text.split_once(':').unwrap();
        let (line, rest) = (at + 1, rest.trim());
        at += 1;
        let value = if let Some(items) = rest.strip_prefix('[') {
            Tree::List(items.trim_end_matches(']').split(", ").collect())
        } else if rest == "{}" {
            Tree::Map(Vec::new())
        } else if !rest.is_empty() {
            Tree::Scalar(rest)
        } else {
            let (below, behind) = map_at(lines, at, column + 2);
            at = behind;
            if below.is_empty() { Tree::Null } else { Tree::Map(below) }
        };
        entries.push(Entry { key, line, value });
    }
    (entries, at)
}

#[derive(Clone, Copy, Debug, PartialEq, Eq)]
enum Kind {
    UnknownEntity,
    UnknownVariable,
    UnknownPerson,
    PersonTwice,
    BadValue,
    PeriodMismatch,
    InconsistentInput,
    TooMany,
}

#[derive(Clone, Copy, Debug)]
#[allow(dead_code)]
struct Fault {
    line: usize,
    kind: Kind,
}

fn fault<T>(line: usize, kind: Kind) -> Result<T, Fault> {
    Err(Fault { line, kind })
}

#[derive(Clone, Copy, PartialEq, Eq, Hash)]
struct Key {
    variable: usize,
    member: u32,
    period: Period,
}

#[derive(Clone, Copy)]
#[allow(dead_code)]
enum Value {
    Number(Fraction),
    Bool(bool),
    Member(usize),
}

struct Given {
    key: Key,
    value: Value,
    line: usize,
}

/// What is declared: the roles of households by key and plural, and for each variable its name and whether it is of persons.
struct Tables<'a> {
    roles: Map<&'a str, usize>,
    variables: Map<&'a str, (usize, bool)>,
}

fn tables() -> Tables<'static> {
    let mut roles = Map::default();
    for (place, names) in [["head", "heads"], ["partner", "partners"], ["parent", "parents"], ["child", "children"], ["guest", "guests"]].iter().enumerate() {
        roles.extend(names.iter().map(|name| (*name, place)));
    }
    let variables = [("salary", (0, true)), ("rent", (1, false))].into_iter().collect();
    Tables { roles, variables }
}

#[derive(Clone, Copy)]
#[allow(dead_code)]
struct Home {
    group: u32,
    role: usize,
}

#[allow(dead_code)]
struct Situation {
    names: [Vec<String>; 2],
    homes: Vec<Home>,
    rosters: Vec<Vec<u32>>,
    inputs: Map<Key, Value>,
}

/// What stands for a variable of a member.
fn given(givens: &mut Vec<Given>, keys: &mut HashSet<Key, Folds>, tables: &Tables, is_person: bool, member: u32, entry: &Entry) -> Result<(), Fault> {
    let variable = match tables.variables.get(entry.key) {
        Some((place, of_person)) if *of_person == is_person => *place,
        _ => return fault(entry.line, Kind::UnknownVariable),
    };
    let Tree::Map(dated) = &entry.value else {
        return fault(entry.line, Kind::PeriodMismatch);
    };
    for Entry { key, line, value } in dated {
        let Ok(period) = Period::read(key) else {
            return fault(*line, Kind::PeriodMismatch);
        };
        if !matches!(period.unit(), Unit::Month | Unit::Year) {
            return fault(*line, Kind::PeriodMismatch);
        }
        let Tree::Scalar(word) = value else {
            return fault(*line, Kind::BadValue);
        };
        let Ok(number) = Fraction::from_decimal(word) else {
            return fault(*line, Kind::BadValue);
        };
        let key = Key { variable, member, period };
        if !keys.insert(key) {
            return fault(*line, Kind::InconsistentInput);
        }
        givens.push(Given { key, value: Value::Number(number), line: *line });
    }
    Ok(())
}

fn map_of<'t, 'a>(value: &'t Tree<'a>, line: usize) -> Result<&'t [Entry<'a>], Fault> {
    match value {
        Tree::Map(entries) => Ok(entries),
        Tree::Null | Tree::Scalar(_) | Tree::List(_) => fault(line, Kind::BadValue),
    }
}

/// One value more, unless there are as many as there may be.
fn put(inputs: &mut Map<Key, Value>, line: usize, key: Key, value: Value) -> Result<(), Fault> {
    if inputs.len() >= LIMIT {
        return fault(line, Kind::TooMany);
    }
    inputs.insert(key, value);
    Ok(())
}

/// Shares a given input over its months: what is left of it equally over those that have nothing.
fn share(inputs: &mut Map<Key, Value>, given: &Given) -> Result<(), Fault> {
    let Given { key, value, line } = given;
    let count = key.period.sub_count(Unit::Month).unwrap();
    if count == 1 {
        if inputs.contains_key(key) {
            return fault(*line, Kind::InconsistentInput);
        }
        return put(inputs, *line, *key, *value);
    }
    let Value::Number(mut rest) = *value else {
        return fault(*line, Kind::BadValue);
    };
    let part = |i| Key { period: key.period.sub(Unit::Month, i), ..*key };
    let mut free = 0;
    for i in 0..count {
        match inputs.get(&part(i)) {
            Some(Value::Number(number)) => match rest.add(Fraction { numerator: -number.numerator, ..*number }) {
                Ok(less) => rest = less,
                Err(_) => return fault(*line, Kind::BadValue),
            },
            Some(_) => return fault(*line, Kind::BadValue),
            None => free += 1,
        }
    }
    if free == 0 {
        return if rest.numerator == 0 { Ok(()) } else { fault(*line, Kind::InconsistentInput) };
    }
    let Ok(one) = Fraction::new(1, free).and_then(|part| rest.mul(part)) else {
        return fault(*line, Kind::BadValue);
    };
    for i in 0..count {
        let here = part(i);
        if !inputs.contains_key(&here) {
            put(inputs, *line, here, Value::Number(one))?;
        }
    }
    Ok(())
}

/// The members of a situation.
struct Members<'a> {
    names: [Vec<String>; 2],
    places: Map<&'a str, u32>,
    homes: Vec<Home>,
    rosters: Vec<Vec<u32>>,
}

fn members<'a>(tables: &Tables, persons: &[Entry<'a>], households: &[Entry]) -> Result<Members<'a>, Fault> {
    let mut names = [Vec::new(), Vec::new()];
    let mut places = Map::default();
    for (place, person) in persons.iter().enumerate() {
        if place >= 1000 {
            return fault(person.line, Kind::TooMany);
        }
        names[1].push(person.key.to_string());
        places.insert(person.key, place as u32);
    }
    let mut homes: Vec<Option<Home>> = vec![None; persons.len()];
    for (group, household) in households.iter().enumerate() {
        if group >= 1000 {
            return fault(household.line, Kind::TooMany);
        }
        names[0].push(household.key.to_string());
        for entry in map_of(&household.value, household.line)? {
            let Some(role) = tables.roles.get(entry.key) else {
                continue;
            };
            let held: &[&str] = match &entry.value {
                Tree::List(held) => held,
                Tree::Scalar(one) => std::slice::from_ref(one),
                Tree::Null | Tree::Map(_) => return fault(entry.line, Kind::BadValue),
            };
            for name in held {
                let Some(person) = places.get(name) else {
                    return fault(entry.line, Kind::UnknownPerson);
                };
                let home = &mut homes[*person as usize];
                if home.is_some() {
                    return fault(entry.line, Kind::PersonTwice);
                }
                *home = Some(Home { group: group as u32, role: *role });
            }
        }
    }
    let mut rosters = vec![Vec::new(); names[0].len()];
    let mut held = Vec::with_capacity(homes.len());
    for (person, home) in homes.iter().enumerate() {
        let home = home.unwrap_or(Home { group: rosters.len() as u32, role: 0 });
        if home.group as usize == rosters.len() {
            rosters.push(Vec::new());
            names[0].push(persons[person].key.to_string());
        }
        rosters[home.group as usize].push(person as u32);
        held.push(home);
    }
    Ok(Members { names, places, homes: held, rosters })
}

fn situation(tables: &Tables, tree: &[Entry]) -> Result<Situation, Fault> {
    let (mut persons, mut households): (&[Entry], &[Entry]) = (&[], &[]);
    for entry in tree {
        match entry.key {
            "persons" => persons = map_of(&entry.value, entry.line)?,
            "households" => households = map_of(&entry.value, entry.line)?,
            _ => return fault(entry.line, Kind::UnknownEntity),
        }
    }
    let members = members(tables, persons, households)?;
    let (mut givens, mut keys) = (Vec::new(), HashSet::default());
    for person in persons {
        let place = members.places[person.key];
        for entry in map_of(&person.value, person.line)? {
            given(&mut givens, &mut keys, tables, true, place, entry)?;
        }
    }
    for (place, household) in households.iter().enumerate() {
        for entry in map_of(&household.value, household.line)? {
            if !tables.roles.contains_key(entry.key) {
                given(&mut givens, &mut keys, tables, false, place as u32, entry)?;
            }
        }
    }
    givens.sort_by_key(|given| (given.key.period.months(), given.key.period.start_day(), given.key.period.unit()));
    let mut inputs = Map::default();
    for given in &givens {
        share(&mut inputs, given)?;
    }
    let rows: HashSet<(usize, Period), Folds> = inputs.keys().map(|key| (key.variable, key.period)).collect();
    let default = Value::Number(Fraction { numerator: 0, denominator: 1 });
    for (variable, period) in rows {
        for member in 0..members.names[1 - variable].len() as u32 {
            let key = Key { variable, member, period };
            if !inputs.contains_key(&key) {
                put(&mut inputs, 0, key, default)?;
            }
        }
    }
    Ok(Situation { names: members.names, homes: members.homes, rosters: members.rosters, inputs })
}

/// The sum of what the members of both kinds have for the months of 2010 to 2017.
fn inputs(situation: &Situation) -> u64 {
    let years = Period::read("year:2010:8").unwrap();
    let mut sum = situation.names[0].len() as u64;
    for variable in 0..2 {
        for member in 0..situation.names[1 - variable].len() as u32 {
            let mut one = 0u64;
            for i in 0..96 {
                let key = Key { variable, member, period: years.sub(Unit::Month, i) };
                if let Some(Value::Number(number)) = situation.inputs.get(&key) {
                    one = one.wrapping_mul(31).wrapping_add(number.numerator as u64);
                }
            }
            sum = sum.wrapping_mul(31).wrapping_add(one);
        }
    }
    sum
}

/// The sum of what the members of the second kind have of a variable that has no inputs.
fn absent(situation: &Situation) -> u64 {
    let years = Period::read("year:2010:8").unwrap();
    let mut sum = 0u64;
    for member in 0..situation.names[1].len() as u32 {
        for i in 0..96 {
            let key = Key { variable: 2, member, period: years.sub(Unit::Month, i) };
            if let Some(Value::Number(number)) = situation.inputs.get(&key) {
                sum = sum.wrapping_add(number.numerator as u64);
            }
        }
    }
    sum
}

/// How many of the inputs of one member for the months of a year, which are given this value, are true then.
fn turned(situation: &mut Situation, value: bool) -> u64 {
    let year = Period::read("2010").unwrap();
    let mut sum = 0;
    for i in 0..12 {
        let key = Key { variable: 0, member: 0, period: year.sub(Unit::Month, i) };
        if let Some(input) = situation.inputs.get_mut(&key) {
            *input = Value::Bool(value);
        }
        if let Some(Value::Bool(true)) = situation.inputs.get(&key) {
            sum += 1;
        }
    }
    sum
}

fn main() {
    let words: Vec<String> = std::env::args().skip(1).collect();
    let text = std::fs::read_to_string(format!("bench/out/situations/{}", words[1])).unwrap();
    let count: u64 = words[2].parse().unwrap();
    let lines: Vec<&str> = text.lines().collect();
    let (tree, _) = map_at(&lines, 0, 0);
    let (tables, mut nanoseconds, mut checksum) = (tables(), 0, 0);
    if words[0] == "read" {
        for _ in 0..count {
            let start = Instant::now();
            let read = situation(&tables, &tree);
            nanoseconds += start.elapsed().as_nanos();
            checksum = inputs(&read.unwrap());
        }
    } else {
        let mut start = Instant::now();
        let mut read = situation(&tables, &tree).unwrap();
        if words[0] != "input" {
            start = Instant::now();
        }
        for run in 0..count {
            checksum = match words[0].as_str() {
                "absent" => checksum + absent(&read),
                "turn" => checksum + turned(&mut read, run % 2 == 0),
                _ => inputs(&read),
            };
        }
        nanoseconds = start.elapsed().as_nanos();
    }
    println!("{nanoseconds} {checksum}");
}
