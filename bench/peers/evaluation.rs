// The peer of `fisca_bench evaluation`: the same keys worked out in plain Rust, by recursion over the same trees of
// formulas. Inputs stand in an index table under the same hash as ours, and so does what is remembered, where values
// are; numbers are exact fractions, and at most a hundred keys are asked for below one another. With
// FISCA_PEER=machine they are worked out by the same machine as ours, which looks where there is a memory for each
// key whether it is remembered, and whether it stands among those above it.
//
// rustc -O bench/peers/evaluation.rs; ./evaluation [remembered] NAME SIZE COUNT
#[allow(dead_code)]
mod params;
#[allow(dead_code)]
mod periods;

use params::{CalcFault, Day, Fraction, NumFault, ParamTree, files_of, find, mixed, reduce};
use periods::{Period, TimeFault, Unit};
use std::hash::{Hash, Hasher};
use std::time::Instant;

include!("common.rs");
include!("machine.rs");

/// Hashes keys as ours does: those of one variable and member at periods that follow one another have hashes that do,
/// sixteen in a row.
struct KeyHasher {
    state: u64,
}

impl Hasher for KeyHasher {
    fn finish(&self) -> u64 {
        let number = self.state >> 16 & 0xffff_ffff;
        (number / 16 * (0xb65_18d7 * 16) + number % 16 * 0x9d00_0001) & 0xffff_ffff
    }

    fn write(&mut self, bytes: &[u8]) {
        let word = match *bytes {
            [a, b, c, d, e, f, g, h] => u64::from_le_bytes([a, b, c, d, e, f, g, h]),
            [a, b, c, d] => u32::from_le_bytes([a, b, c, d]).into(),
            _ => 0,
        };
        self.state = self.state.wrapping_mul(0x9fb3_1c96_4a71_4ae3).wrapping_add(word);
    }
}

fn hash_of(key: &Key) -> usize {
    let mut hasher = KeyHasher { state: 0 };
    key.hash(&mut hasher);
    hasher.finish() as usize
}

/// What stands under keys: an index of open addressing over keys and values in two columns, of which it is twice as long at least.
struct Table<V> {
    slots: Vec<u32>,
    keys: Vec<Key>,
    values: Vec<V>,
}

impl<V: Copy> Table<V> {
    fn new() -> Table<V> {
        Table { slots: Vec::new(), keys: Vec::new(), values: Vec::new() }
    }

    /// The place in the index of the key, or the free one where it has none.
    fn slot(&self, key: &Key) -> usize {
        let mut at = hash_of(key) & (self.slots.len() - 1);
        while self.slots[at] != 0 && self.keys[self.slots[at] as usize - 1] != *key {
            at = (at + 1) & (self.slots.len() - 1);
        }
        at
    }

    fn find(&self, key: &Key) -> Option<V> {
        if self.slots.is_empty() {
            return None;
        }
        match self.slots[self.slot(key)] {
            0 => None,
            place => Some(self.values[place as usize - 1]),
        }
    }

    /// Puts a key in that is not there.
    fn put(&mut self, key: Key, value: V) {
        if 2 * self.keys.len() >= self.slots.len() {
            self.slots = vec![0; (2 * self.slots.len()).max(16)];
            for place in 0..self.keys.len() {
                let at = self.slot(&self.keys[place]);
                self.slots[at] = place as u32 + 1;
            }
        }
        let at = self.slot(&key);
        self.keys.push(key);
        self.values.push(value);
        self.slots[at] = self.keys.len() as u32;
    }
}

impl Inputs for Table<Value> {
    fn get(&self, key: &Key) -> Option<Value> {
        self.find(key)
    }
}

/// The table of inputs.
fn table_of(given: Vec<(Key, Fraction)>) -> Table<Value> {
    let mut table = Table::new();
    for (key, number) in given {
        table.put(key, Value::Number(number));
    }
    table
}

impl Recall for Table<Known> {
    const REMEMBERS: bool = true;

    fn look(&self, key: &Key) -> Option<Known> {
        self.find(key)
    }

    fn keep(&mut self, key: Key, known: Known) {
        self.put(key, known);
    }
}

/// The memory of a peer that remembers nothing.
struct Nothing;

impl Recall for Nothing {
    const REMEMBERS: bool = false;

    fn look(&self, _: &Key) -> Option<Known> {
        None
    }

    fn keep(&mut self, _: Key, _: Known) {}
}

// The rule set that `bench/texts/evaluation` writes, and its situations.

const PERSON: usize = 1;
const HOUSEHOLD: usize = 0;
const SALARY: usize = 0;
const HOURS: usize = 1;
const STEP: usize = 2;
const TOTAL: usize = 3;
const PAY: usize = 4;
const PAYS: usize = 5;
const SUMS: usize = 6;
const NODES: usize = 9;
const CONTRIBUTION: usize = 12;
const TWICE: usize = 13;
const DAILY: usize = 14;
const DECADE: usize = 15;
const DECADES: usize = 16;
/// The days of ten years.
const DAYS: u32 = 3652;

fn whole(numerator: i64) -> Fraction {
    Fraction { numerator, denominator: 1 }
}

fn asked(variable: usize, whom: Whom, asking: Asking, moves: Vec<Move>) -> Node {
    Node::Ask(Box::new(Ask { variable, whom, asking, moves }))
}

fn two(operation: Arithmetic, left: Node, right: Node) -> Node {
    Node::Arithmetic(operation, Box::new(Pair { left, right }))
}

fn summed(nodes: impl Iterator<Item = Node>) -> Option<Node> {
    nodes.reduce(|left, right| two(Arithmetic::Add, left, right))
}

fn ten(allowance: usize) -> Node {
    let own = |variable| asked(variable, Whom::Own, Asking::Plain, Vec::new());
    let parameter = Node::Parameter(Box::new(Parameter { place: allowance, moves: Vec::new() }));
    let above = two(Arithmetic::Max, two(Arithmetic::Subtract, own(SALARY), parameter), Node::Literal(Fraction::ZERO));
    let quarter = Node::Literal(Fraction { numerator: 1, denominator: 4 });
    two(Arithmetic::Add, two(Arithmetic::Multiply, above, quarter), Node::Negative(Box::new(own(HOURS))))
}

fn rules() -> Rules {
    let parameters = ParamTree::read(&files_of("bench/out/evaluation/rules")).ok().unwrap();
    let allowance = find(&parameters, "parameters/allowance.yaml").unwrap();
    let scale = find(&parameters, "parameters/contribution.yaml").unwrap();
    let own = |variable, moves| asked(variable, Whom::Own, Asking::Plain, moves);
    let of_all = |variable| {
        let values = asked(variable, Whom::Person, Asking::Plain, Vec::new());
        Node::Total(Total::Sum, Box::new(Totalled { role: None, values }))
    };
    let year = |variable, k: i64| asked(variable, Whom::Own, Asking::Add, if k == 0 { Vec::new() } else { vec![Move::Offset(-k)] });
    let variable = |kind, entity, unit, result: Option<Node>| Variable {
        kind,
        entity,
        unit,
        end: None,
        default: Value::Number(Fraction::ZERO),
        formulas: result.into_iter().map(|result| Formula { start: 1 << 16 | 1 << 8 | 1, locals: Vec::new(), result }).collect(),
    };
    let month = |entity, result| variable(Kind::Float, entity, Unit::Month, result);
    let mut variables = vec![
        month(PERSON, None),
        variable(Kind::Int, PERSON, Unit::Month, None),
        month(PERSON, Some(two(Arithmetic::Add, own(STEP, vec![Move::LastMonth]), Node::Literal(ONE)))),
        month(HOUSEHOLD, Some(of_all(SALARY))),
        month(PERSON, Some(two(Arithmetic::Subtract, own(SALARY, Vec::new()), Node::Literal(ONE)))),
        month(HOUSEHOLD, Some(of_all(PAY))),
    ];
    for years in [25, 50, 100] {
        variables.push(variable(Kind::Float, PERSON, Unit::Year, summed((0..years).map(|k| year(SALARY, k)))));
    }
    for times in [1, 2, 4] {
        variables.push(month(PERSON, summed((0..times).map(|_| ten(allowance)))));
    }
    let base = own(SALARY, Vec::new());
    variables.push(month(PERSON, Some(Node::Scale(Box::new(ScaleSum { place: scale, moves: Vec::new(), base })))));
    let before = || own(TWICE, vec![Move::LastMonth]);
    variables.push(month(PERSON, Some(two(Arithmetic::Add, before(), before()))));
    variables.push(variable(Kind::Float, PERSON, Unit::Day, Some(Node::Literal(whole(2)))));
    variables.push(variable(Kind::Float, PERSON, Unit::Year, summed((0..10).map(|k| year(DAILY, k)))));
    variables.push(variable(Kind::Float, HOUSEHOLD, Unit::Year, Some(of_all(DECADE))));
    Rules { variables, parameters }
}

fn period(text: &str) -> Period {
    Period::read(text).unwrap()
}

/// So many persons of one household, whose salaries have two places or none.
fn persons(count: u32, places: bool) -> Vec<(Key, Fraction)> {
    let mut given = Vec::new();
    for member in 0..count {
        let units = 700 + 3 * member;
        let salary = if places { Fraction::from_decimal(&format!("{units}.{}", 11 + member % 89)).unwrap() } else { whole(units.into()) };
        given.push((Key { variable: SALARY, member, period: period("2017-01") }, salary));
        given.push((Key { variable: HOURS, member, period: period("2017-01") }, whole((100 + member % 50).into())));
    }
    given
}

/// The inputs of a cell, and the keys that it asks for.
fn cell(name: &str, size: u32) -> (Vec<(Key, Fraction)>, Vec<Key>) {
    let now = period("2017-01");
    let at = |variable, period| vec![Key { variable, member: 0, period }];
    let of_each = |variable| (0..1000).map(|member| Key { variable, member, period: now }).collect();
    match name {
        "chain" | "twice" => {
            let first = period("2000-01");
            let variable = if name == "chain" { STEP } else { TWICE };
            let given = vec![(Key { variable, member: 0, period: first }, ONE)];
            (given, at(variable, first.offset(i64::from(size) - 1).unwrap()))
        }
        "members" => (persons(size, false), at(TOTAL, now)),
        "hundredths" => (persons(size, true), at(TOTAL, now)),
        "formulas" => (persons(size, false), at(PAYS, now)),
        "months" => {
            let years = period("year:1918:100");
            let month = |i| (Key { variable: SALARY, member: 0, period: years.sub(Unit::Month, i) }, whole(1029));
            ((0..1200).map(month).collect(), at(SUMS + (size / 600) as usize, period("2017")))
        }
        "days" => (persons(size / DAYS, false), at(DECADES, period("2019"))),
        "nodes" => (persons(1000, true), of_each(NODES + (size / 20) as usize)),
        _ => (persons(1000, true), of_each(CONTRIBUTION)),
    }
}

fn main() {
    let mut words: Vec<String> = std::env::args().skip(1).collect();
    let remembers = words[0] == "remembered";
    if remembers {
        words.remove(0);
    }
    let (size, count): (u32, u64) = (words[1].parse().unwrap(), words[2].parse().unwrap());
    let rules = rules();
    let (given, keys) = cell(&words[0], size);
    let role = Role { role: 0, subrole: None };
    let persons = match words[0].as_str() {
        "members" | "hundredths" | "formulas" => size,
        "days" => size / DAYS,
        "nodes" | "scale" => 1000,
        _ => 1,
    };
    let situation = Situation { inputs: table_of(given), homes: vec![Home { group: 0, role }; persons as usize], persons: vec![(0..persons).collect()] };
    let rounds = if keys.len() > 1 { count / keys.len() as u64 } else { count / u64::from(size) };
    let start = Instant::now();
    let is_machine = std::env::var_os("FISCA_PEER").is_some_and(|peer| peer == "machine");
    let checksum = if is_machine && remembers {
        (0..rounds).fold(0, |sum, _| {
            let recall: Table<Known> = Table::new();
            let mut evaluator = machine::Evaluator { rules: &rules, situation: &situation, recall, stacks: machine::Stacks::new() };
            all(sum, &keys, |key| evaluator.value(key))
        })
    } else if is_machine {
        let mut evaluator = machine::Evaluator { rules: &rules, situation: &situation, recall: Nothing, stacks: machine::Stacks::new() };
        (0..rounds).fold(0, |sum, _| all(sum, &keys, |key| evaluator.value(key)))
    } else if remembers {
        (0..rounds).fold(0, |sum, _| {
            let recall: Table<Known> = Table::new();
            let mut evaluator = Evaluator { rules: &rules, situation: &situation, recall, keys: Vec::new(), tallest: 0, reads: 0 };
            all(sum, &keys, |key| evaluator.value(key))
        })
    } else {
        let mut evaluator = Evaluator { rules: &rules, situation: &situation, recall: Nothing, keys: Vec::new(), tallest: 0, reads: 0 };
        (0..rounds).fold(0, |sum, _| all(sum, &keys, |key| evaluator.value(key)))
    };
    println!("{} {checksum}", start.elapsed().as_nanos());
}

/// Works the keys out once more. The checksum is of their values.
fn all(before: u64, keys: &[Key], mut value: impl FnMut(Key) -> Result<Value, Fault>) -> u64 {
    keys.iter().fold(before, |checksum, key| match value(*key) {
        Ok(Value::Number(number)) => mixed(checksum, number),
        Ok(Value::Bool(truth)) => checksum.rotate_left(3).wrapping_add(u64::from(truth)),
        Ok(Value::Member(place)) => checksum.rotate_left(3).wrapping_add(place as u64),
        Err(_) => checksum.rotate_left(7),
    })
}
