// The peer of `fisca run` in plain Rust: the lines of the run files that `bench/runs` writes, by the very formulas as
// trees. Each position has a situation and a memory of its own, in hash tables: the inputs are shared over the parts
// of their periods anew, and what a formula gave is remembered. With FISCA_PEER=kept the two tables are emptied for
// the next position, and not made anew. With FISCA_PEER=wheels there is one situation and one memory for the run:
// each group of axes is a wheel, a position sets the inputs of the wheels that turn, and what was remembered counts
// until a wheel turns that it read; with FISCA_PEER=machine that, and formulas are worked out by the same machine as
// ours.
//
// rustc -O -C codegen-units=1 bench/peers/runs.rs; ./runs NAME COUNT [--from POSITION], COUNT that of the last group
// of axes
#[allow(dead_code)]
mod params;
#[allow(dead_code)]
mod periods;

use params::{CalcFault, Day, Fraction, NumFault, ParamTree, SourceFile, find, reduce};
use periods::{Period, TimeFault, Unit};
use std::collections::HashMap;
use std::hash::{BuildHasherDefault, Hasher};
use std::io::{self, BufWriter, Write};
use std::path::Path;

include!("common.rs");
include!("machine.rs");
include!("lines.rs");

/// A hash by one multiplication for each word.
#[derive(Default)]
struct WordHasher {
    state: u64,
}

impl Hasher for WordHasher {
    fn finish(&self) -> u64 {
        self.state
    }

    fn write(&mut self, _: &[u8]) {
        unreachable!()
    }

    fn write_u64(&mut self, word: u64) {
        let product = u128::from(self.state ^ word ^ 0x243f_6a88_85a3_08d3) * 0x9e37_79b9_7f4a_7c15;
        self.state = product as u64 ^ (product >> 64) as u64;
    }
}

/// A key as a table has it: the variable and the member in one word.
#[derive(Clone, Copy, PartialEq, Eq)]
struct Packed {
    whose: u64,
    period: Period,
}

impl std::hash::Hash for Packed {
    fn hash<H: Hasher>(&self, state: &mut H) {
        state.write_u64(self.whose);
        self.period.hash(state);
    }
}

fn packed(key: &Key) -> Packed {
    Packed { whose: (key.variable as u64) << 32 | u64::from(key.member), period: key.period }
}

type Table<V> = HashMap<Packed, V, BuildHasherDefault<WordHasher>>;

impl Inputs for Table<Value> {
    fn get(&self, key: &Key) -> Option<Value> {
        HashMap::get(self, &packed(key)).copied()
    }
}

impl Recall for Table<Known> {
    const REMEMBERS: bool = true;

    fn look(&self, key: &Key) -> Option<Known> {
        HashMap::get(self, &packed(key)).copied()
    }

    fn keep(&mut self, key: Key, known: Known) {
        self.insert(packed(&key), known);
    }
}

/// The inputs of a run, and the wheels that move each variable's inputs, as bits.
struct Turning {
    inputs: Table<Value>,
    wheels: Vec<u16>,
}

impl Inputs for Turning {
    fn get(&self, key: &Key) -> Option<Value> {
        Inputs::get(&self.inputs, key)
    }

    fn wheels(&self, variable: usize) -> u16 {
        self.wheels[variable]
    }
}

/// What is remembered, and when.
struct Stamped {
    known: Known,
    kept_at: u64,
}

/// A memory over all positions: what was kept before a wheel turned that it read is stale. Nothing is taken out, and a stale entry is written over.
#[derive(Default)]
struct Clock {
    entries: Table<Stamped>,
    turned_at: [u64; 16],
    now: u64,
}

impl Clock {
    fn turn(&mut self, wheel: usize) {
        self.now += 1;
        self.turned_at[wheel] = self.now;
    }

    fn is_fresh(&self, stamped: &Stamped) -> bool {
        let mut wheels = stamped.known.reads;
        while wheels != 0 {
            if self.turned_at[wheels.trailing_zeros() as usize] > stamped.kept_at {
                return false;
            }
            wheels &= wheels - 1;
        }
        true
    }
}

impl Recall for &mut Clock {
    const REMEMBERS: bool = true;

    fn look(&self, key: &Key) -> Option<Known> {
        let stamped = HashMap::get(&self.entries, &packed(key))?;
        self.is_fresh(stamped).then_some(stamped.known)
    }

    fn keep(&mut self, key: Key, known: Known) {
        let kept_at = self.now;
        self.entries.insert(packed(&key), Stamped { known, kept_at });
    }
}

/// How a value for a longer period is shared over the parts: not at all, the whole value for each, or an equal part.
#[derive(Clone, Copy, PartialEq)]
enum Sharing {
    None,
    Dispatch,
    Divide,
}

/// A value that is given for a period.
#[derive(Clone, Copy)]
struct Given {
    key: Key,
    value: Value,
    sharing: Sharing,
}

/// An axis that moves the value that is given at a place. Axes of one group have one count.
struct Moving {
    axis: Axis,
    group: usize,
    given: usize,
}

/// The keys that an axis moves, and into how many parts its values go.
struct Slot {
    keys: Vec<Key>,
    parts: u64,
}

struct Condition {
    key: Key,
    comparison: Comparison,
    constant: Fraction,
}

/// A run file under its rules.
struct Run {
    rules: Rules,
    homes: Vec<Home>,
    persons: Vec<Vec<u32>>,
    /// In the order in which they are shared: shorter periods first, then those that start first.
    given: Vec<Given>,
    /// The count of each group of axes.
    counts: Vec<u64>,
    axes: Vec<Moving>,
    filter: Vec<Condition>,
    columns: Vec<Key>,
}

impl Run {
    fn members(&self, entity: usize) -> u32 {
        if entity == PERSON { self.homes.len() as u32 } else { self.persons.len() as u32 }
    }

    /// Puts all inputs into a table: what is given, shared over the parts that have no value yet, and defaults beside the inputs of other members.
    fn share(&self, given: &[Given], inputs: &mut Table<Value>, rows: &mut Vec<(usize, Period)>) {
        rows.clear();
        for Given { key, value, sharing } in given {
            let Key { variable, member, period } = *key;
            let declared = &self.rules.variables[variable];
            let is_alone = self.members(declared.entity) == 1;
            let mut put = |inputs: &mut Table<Value>, period, value| {
                inputs.insert(packed(&Key { variable, member, period }), value);
                if !is_alone {
                    rows.push((variable, period));
                }
            };
            if *sharing == Sharing::None {
                put(inputs, period, *value);
                continue;
            }
            let unit = declared.unit;
            let count = period.sub_count(unit).unwrap();
            let key_of = |i| Key { variable, member, period: period.sub(unit, i) };
            let mut part = *value;
            if *sharing == Sharing::Divide {
                let (mut left, mut free) = (number(*value), 0);
                for i in 0..count {
                    match inputs.get(&packed(&key_of(i))) {
                        Some(value) => left = left.sub(number(*value)).unwrap(),
                        None => free += 1,
                    }
                }
                part = Value::Number(divided(left, Fraction { numerator: free, denominator: 1 }).unwrap());
            }
            for i in 0..count {
                let key = key_of(i);
                if !inputs.contains_key(&packed(&key)) {
                    put(inputs, key.period, part);
                }
            }
        }
        for (variable, period) in rows.iter().copied() {
            let declared = &self.rules.variables[variable];
            for member in 0..self.members(declared.entity) {
                inputs.entry(packed(&Key { variable, member, period })).or_insert(declared.default);
            }
        }
    }

    /// The place of each group at a position, and how many positions there are.
    fn places(&self, from: u64) -> (Vec<u64>, u64) {
        let mut size = 1;
        let mut places = Vec::new();
        for count in &self.counts {
            places.push(from / size % count);
            size *= count;
        }
        (places, size)
    }

    /// Goes to the next position: how many groups turn.
    fn step(&self, places: &mut [u64]) -> usize {
        for (group, (place, count)) in places.iter_mut().zip(&self.counts).enumerate() {
            *place += 1;
            if *place < *count {
                return group + 1;
            }
            *place = 0;
        }
        places.len()
    }

    /// The value of an axis at a place, as its variable has it.
    fn value_at(&self, moving: &Moving, place: u64) -> Value {
        let key = &self.given[moving.given].key;
        let (numerator, denominator) = moving.axis.value(place as i64);
        cast(self.rules.variables[key.variable].kind, Value::Number(Fraction { numerator, denominator }), key).ok().unwrap()
    }

    /// What an axis moves. No part of its period has a value of its own.
    fn slot(&self, moving: &Moving) -> Slot {
        let Given { key, sharing, .. } = self.given[moving.given];
        if sharing == Sharing::None {
            return Slot { keys: vec![key], parts: 1 };
        }
        let is_within = |other: &Given| key.variable == other.key.variable && key.member == other.key.member;
        assert_eq!(1, self.given.iter().filter(|other| is_within(other)).count());
        let unit = self.rules.variables[key.variable].unit;
        let count = key.period.sub_count(unit).unwrap();
        let keys = (0..count).map(|i| Key { period: key.period.sub(unit, i), ..key }).collect();
        Slot { keys, parts: if sharing == Sharing::Divide { count as u64 } else { 1 } }
    }

    /// Writes the lines from a position on, by one situation and one memory, the formulas by recursion or by the same machine as ours.
    fn write_turning(&self, from: u64, is_machine: bool, out: &mut impl Write) -> io::Result<()> {
        let mut given = self.given.clone();
        let (mut places, size) = self.places(from);
        let mut wheels = vec![0; self.rules.variables.len()];
        for moving in &self.axes {
            wheels[given[moving.given].key.variable] |= 1 << moving.group;
        }
        let mut inputs = Table::default();
        self.share(&given, &mut inputs, &mut Vec::new());
        let (homes, persons) = (self.homes.clone(), self.persons.clone());
        let mut situation = Situation { inputs: Turning { inputs, wheels }, homes, persons };
        let slots: Vec<Slot> = self.axes.iter().map(|moving| self.slot(moving)).collect();
        let (mut clock, mut keys, mut stacks, mut line) = (Clock::default(), Vec::new(), machine::Stacks::new(), Vec::with_capacity(256));
        let mut turned = places.len();
        for position in from..size {
            (0..turned).for_each(|wheel| clock.turn(wheel));
            for (moving, slot) in self.axes.iter().zip(&slots).filter(|(moving, _)| moving.group < turned) {
                let value = self.value_at(moving, places[moving.group]);
                given[moving.given].value = value;
                let part = match slot.parts {
                    1 => value,
                    parts => Value::Number(divided(number(value), Fraction { numerator: parts as i64, denominator: 1 }).unwrap()),
                };
                for key in &slot.keys {
                    situation.inputs.inputs.insert(packed(key), part);
                }
            }
            line.clear();
            let written = if is_machine {
                let mut evaluator = machine::Evaluator { rules: &self.rules, situation: &situation, recall: &mut clock, stacks };
                let written = self.write_row(position, &given, |key| evaluator.value(key), &mut line);
                stacks = evaluator.stacks;
                written
            } else {
                let mut evaluator = Evaluator { rules: &self.rules, situation: &situation, recall: &mut clock, keys, tallest: 0, reads: 0 };
                let written = self.write_row(position, &given, |key| evaluator.value(key), &mut line);
                keys = evaluator.keys;
                written
            };
            if written.is_err() {
                panic!("position {position}: a value cannot be worked out");
            }
            out.write_all(&line)?;
            turned = self.step(&mut places);
        }
        out.write_all(b"end\n")
    }

    /// Writes the lines from a position on.
    fn write(&self, from: u64, is_kept: bool, out: &mut impl Write) -> io::Result<()> {
        let mut given = self.given.clone();
        let (mut places, size) = self.places(from);
        let (mut line, mut rows, mut keys) = (Vec::with_capacity(256), Vec::new(), Vec::new());
        let (mut inputs, mut recall): (Table<Value>, Table<Known>) = Default::default();
        let (mut homes, mut persons) = (self.homes.clone(), self.persons.clone());
        for position in from..size {
            for moving in &self.axes {
                given[moving.given].value = self.value_at(moving, places[moving.group]);
            }
            if is_kept {
                inputs.clear();
                recall.clear();
            } else {
                inputs = Table::with_capacity_and_hasher(inputs.len(), Default::default());
                recall = Table::default();
            }
            self.share(&given, &mut inputs, &mut rows);
            let situation = Situation { inputs, homes, persons };
            let mut evaluator = Evaluator { rules: &self.rules, situation: &situation, recall, keys, tallest: 0, reads: 0 };
            line.clear();
            if self.write_row(position, &given, |key| evaluator.value(key), &mut line).is_err() {
                panic!("position {position}: a value cannot be worked out");
            }
            out.write_all(&line)?;
            (recall, keys) = (evaluator.recall, evaluator.keys);
            Situation { inputs, homes, persons } = situation;
            self.step(&mut places);
        }
        out.write_all(b"end\n")
    }

    /// Appends the line of a position, where all conditions hold.
    fn write_row(&self, position: u64, given: &[Given], mut value: impl FnMut(Key) -> Result<Value, Fault>, line: &mut Vec<u8>) -> Result<(), Fault> {
        for condition in &self.filter {
            if !compared(condition.comparison, number(value(condition.key)?), condition.constant) {
                return Ok(());
            }
        }
        push_whole(line, position);
        for moving in &self.axes {
            push_value(line, given[moving.given].value);
        }
        for column in &self.columns {
            push_value(line, value(*column)?);
        }
        line.push(b'\n');
        Ok(())
    }
}

/// Appends a tab and the text of a value.
fn push_value(line: &mut Vec<u8>, value: Value) {
    line.push(b'\t');
    match value {
        Value::Number(number) => push_number(line, (number.numerator, number.denominator)),
        Value::Bool(truth) => line.extend_from_slice(if truth { b"true" } else { b"false" }),
        Value::Member(_) => unreachable!(),
    }
}

// The rule sets, and the run files.

const HOUSEHOLD: usize = 0;
const PERSON: usize = 1;
const HEAD: Role = Role { role: 0, subrole: None };
const ADULT: Role = Role { role: 1, subrole: None };
const CHILD: Role = Role { role: 2, subrole: None };
const ALWAYS: &str = "0001-01-01";
const OWNER: Node = Node::Member(0);
const TENANT: Node = Node::Member(1);
const CITY: Value = Value::Member(0);

/// What formulas refer to: variables by their places, and parameters.
struct Names<'n> {
    variables: &'n [&'n str],
    parameters: ParamTree,
}

fn literal(whole: i64) -> Node {
    Node::Literal(Fraction { numerator: whole, denominator: 1 })
}

fn pair(left: Node, right: Node) -> Box<Pair> {
    Box::new(Pair { left, right })
}

fn add(left: Node, right: Node) -> Node {
    Node::Arithmetic(Arithmetic::Add, pair(left, right))
}

fn less(left: Node, right: Node) -> Node {
    Node::Arithmetic(Arithmetic::Subtract, pair(left, right))
}

fn times(left: Node, right: Node) -> Node {
    Node::Arithmetic(Arithmetic::Multiply, pair(left, right))
}

fn both(left: Node, right: Node) -> Node {
    Node::Logic(Logic::And, pair(left, right))
}

fn either(left: Node, right: Node) -> Node {
    Node::Logic(Logic::Or, pair(left, right))
}

fn compare(left: Node, comparison: Comparison, right: Node) -> Node {
    Node::Comparison(comparison, pair(left, right))
}

fn total(total: Total, role: Option<Role>, values: Node) -> Node {
    Node::Total(total, Box::new(Totalled { role, values }))
}

/// The place of the parameter of a path.
fn place_of(parameters: &ParamTree, path: &str) -> usize {
    find(parameters, &format!("parameters/{path}.yaml")).unwrap()
}

impl Names<'_> {
    fn place(&self, name: &str) -> usize {
        self.variables.iter().position(|other| *other == name).unwrap()
    }

    fn ask(&self, name: &str, whom: Whom, asking: Asking, moves: &[Move]) -> Node {
        Node::Ask(Box::new(Ask { variable: self.place(name), whom, asking, moves: moves.to_vec() }))
    }

    /// The value of whom the formula is for.
    fn own(&self, name: &str) -> Node {
        self.ask(name, Whom::Own, Asking::Plain, &[])
    }

    /// The value of each person of the group.
    fn each(&self, name: &str) -> Node {
        self.ask(name, Whom::Person, Asking::Plain, &[])
    }

    fn parameter(&self, path: &str) -> Node {
        Node::Parameter(Box::new(Parameter { place: place_of(&self.parameters, path), moves: Vec::new() }))
    }

    fn scale(&self, path: &str, base: Node) -> Node {
        Node::Scale(Box::new(ScaleSum { place: place_of(&self.parameters, path), moves: Vec::new(), base }))
    }
}

fn period(text: &str) -> Period {
    Period::read(text).unwrap()
}

fn day(text: &str) -> Day {
    day_of(period(text)).unwrap()
}

fn from(start: &str, locals: Vec<Node>, result: Node) -> Formula {
    Formula { start: day(start), locals, result }
}

fn variable(kind: Kind, entity: usize, unit: Unit, formulas: Vec<Formula>) -> Variable {
    let default = match kind {
        Kind::Float | Kind::Int => Value::Number(Fraction::ZERO),
        Kind::Bool => Value::Bool(false),
        Kind::Enum => Value::Member(0),
    };
    Variable { kind, entity, unit, end: None, default, formulas }
}

/// A variable of months with one formula that always holds.
fn month(kind: Kind, entity: usize, locals: Vec<Node>, result: Node) -> Variable {
    variable(kind, entity, Unit::Month, vec![from(ALWAYS, locals, result)])
}

/// The parameter files below a folder of rules.
fn files_below(rules: &str, path: &str, files: &mut Vec<SourceFile>) -> io::Result<()> {
    for entry in std::fs::read_dir(Path::new(rules).join(path))? {
        let entry = entry?;
        let path = format!("{path}/{}", entry.file_name().display());
        if entry.file_type()?.is_dir() {
            files_below(rules, &path, files)?;
        } else {
            files.push(SourceFile { text: std::fs::read_to_string(entry.path())?, path });
        }
    }
    Ok(())
}

fn parameters_of(rules: &str) -> io::Result<ParamTree> {
    let mut files = Vec::new();
    files_below(rules, "parameters", &mut files)?;
    ParamTree::read(&files).map_err(|_| io::Error::other("the parameter files make no tree"))
}

/// The variables of `tests/rules/household` that its run needs.
fn household() -> io::Result<Rules> {
    let names = Names { variables: &["rent", "housing_allowance"], parameters: parameters_of("tests/rules/household")? };
    let allowance = times(names.own("rent"), names.parameter("benefits/housing_allowance"));
    let variables = vec![
        variable(Kind::Float, HOUSEHOLD, Unit::Month, Vec::new()),
        Variable {
            end: Some(day("2016-11-30")),
            ..variable(Kind::Float, HOUSEHOLD, Unit::Month, vec![from("1980-01-01", Vec::new(), allowance)])
        },
    ];
    Ok(Rules { variables, parameters: names.parameters })
}

const COUNTRY: [&str; 23] = [
    "age",
    "is_adult",
    "is_retired",
    "minors",
    "present",
    "occupancy",
    "zone",
    "rent",
    "floor_area",
    "housing_tax",
    "housing_tax_of_month",
    "salary",
    "capital_returns",
    "disposable_income",
    "basic_income",
    "pension",
    "housing_allowance",
    "parenting_allowance",
    "zone_supplement",
    "meal_cost",
    "meals",
    "income_tax",
    "social_contribution",
];

/// The variables of `examples/country` that its run needs.
fn country() -> io::Result<Rules> {
    use Comparison::{Equal, Greater, GreaterEqual, Less, LessEqual};
    use Kind::{Bool, Enum, Float, Int};
    let names = Names { variables: &COUNTRY, parameters: parameters_of("examples/country")? };
    let (own, each, parameter) = (|name| names.own(name), |name| names.each(name), |path| names.parameter(path));
    let declared = |name: &&str| match *name {
        "age" => variable(Int, PERSON, Unit::Month, Vec::new()),
        "is_adult" => month(Bool, PERSON, Vec::new(), compare(own("age"), GreaterEqual, parameter("general/age_of_majority"))),
        "is_retired" => month(Bool, PERSON, Vec::new(), compare(own("age"), GreaterEqual, parameter("general/age_of_retirement"))),
        "minors" => month(Int, HOUSEHOLD, Vec::new(), total(Total::Sum, Some(CHILD), Node::Opposite(Box::new(each("is_adult"))))),
        "present" => variable(Int, PERSON, Unit::Day, Vec::new()),
        "occupancy" => Variable { default: Value::Member(1), ..variable(Enum, HOUSEHOLD, Unit::Month, Vec::new()) },
        "zone" => variable(Enum, HOUSEHOLD, Unit::Month, Vec::new()),
        "rent" | "floor_area" => variable(Float, HOUSEHOLD, Unit::Month, Vec::new()),
        "salary" | "capital_returns" => variable(Float, PERSON, Unit::Month, Vec::new()),
        "housing_tax" => {
            let of_january = |name| names.ask(name, Whom::Own, Asking::Plain, &[Move::FirstMonth]);
            let by_area = times(of_january("floor_area"), parameter("taxes/housing_tax/rate"));
            let amount = Node::Arithmetic(Arithmetic::Max, pair(by_area, parameter("taxes/housing_tax/minimal_amount")));
            let is = |member| Node::Same(pair(Node::Local(1), member));
            let locals = vec![amount, of_january("occupancy"), either(is(OWNER), is(TENANT))];
            let result = Node::Choose(Box::new(Node::Local(2)), pair(Node::Local(0), literal(0)));
            variable(Float, HOUSEHOLD, Unit::Year, vec![from(ALWAYS, locals, result)])
        }
        "housing_tax_of_month" => month(Float, HOUSEHOLD, Vec::new(), names.ask("housing_tax", Whom::Own, Asking::Divide, &[])),
        "disposable_income" => {
            let locals = vec![
                add(each("salary"), each("capital_returns")),
                add(each("income_tax"), each("social_contribution")),
                add(each("basic_income"), each("pension")),
            ];
            let of_each = less(add(Node::Local(0), Node::Local(2)), Node::Local(1));
            let received = ["housing_allowance", "parenting_allowance", "zone_supplement"].into_iter().map(own);
            let received = received.fold(total(Total::Sum, None, of_each), add);
            let result = ["meals", "housing_tax_of_month"].into_iter().map(own).fold(received, less);
            month(Float, HOUSEHOLD, locals, result)
        }
        "basic_income" => {
            let amount = || parameter("benefits/basic_income");
            let locals = vec![compare(own("salary"), Equal, literal(0))];
            let first = times(both(own("is_adult"), Node::Local(0)), amount());
            let formulas = vec![from("2016-12-01", Vec::new(), times(own("is_adult"), amount())), from("2015-12-01", locals, first)];
            variable(Float, PERSON, Unit::Month, formulas)
        }
        "pension" => month(Float, PERSON, Vec::new(), times(own("is_retired"), parameter("benefits/pension"))),
        "housing_allowance" => {
            let locals = vec![own("occupancy"), Node::Same(pair(Node::Local(0), TENANT))];
            let result = times(times(Node::Local(1), own("rent")), parameter("benefits/housing_allowance"));
            let formulas = vec![from("1980-01-01", locals, result)];
            Variable { end: Some(day("2016-11-30")), ..variable(Float, HOUSEHOLD, Unit::Month, formulas) }
        }
        "parenting_allowance" => {
            let income = total(Total::Sum, None, each("salary"));
            let is_poor = compare(Node::Local(0), LessEqual, parameter("benefits/parenting_allowance/income_threshold"));
            let is_alone = compare(add(Node::Count(Some(HEAD)), Node::Count(Some(ADULT))), Equal, literal(1));
            let has_small_child = total(Total::Any, Some(CHILD), compare(each("age"), Less, literal(6)));
            let is_by_income = either(Node::Local(1), both(Node::Local(2), Node::Local(3)));
            let is_entitled = both(compare(own("minors"), Greater, literal(0)), is_by_income);
            let locals = vec![income, is_poor, is_alone, has_small_child, is_entitled];
            month(Float, HOUSEHOLD, locals, times(Node::Local(4), parameter("benefits/parenting_allowance/amount")))
        }
        "zone_supplement" => {
            let path = |zone, occupancy| format!("benefits/zone_supplement/{zone}/{occupancy}");
            let paths = ["city", "country"].into_iter().flat_map(|zone| ["owner", "tenant", "free_lodger", "homeless"].map(|occupancy| path(zone, occupancy)));
            let places = paths.map(|path| place_of(&names.parameters, &path)).collect();
            let indices = vec![Index { member: own("zone"), size: 2 }, Index { member: own("occupancy"), size: 4 }];
            month(Float, HOUSEHOLD, Vec::new(), Node::Chosen(Box::new(Chosen { indices, places, moves: Vec::new() })))
        }
        "meal_cost" => {
            let result = times(own("present"), parameter("benefits/meal"));
            variable(Float, PERSON, Unit::Day, vec![from(ALWAYS, Vec::new(), result)])
        }
        "meals" => {
            let of_each = names.ask("meal_cost", Whom::Person, Asking::Add, &[]);
            month(Float, HOUSEHOLD, Vec::new(), total(Total::Sum, Some(CHILD), of_each))
        }
        "income_tax" => month(Float, PERSON, Vec::new(), names.scale("taxes/income_tax", own("salary"))),
        "social_contribution" => {
            let share = Node::Literal(Fraction { numerator: 9, denominator: 100 });
            let by_scale = names.scale("taxes/social_contribution", own("salary"));
            let formulas = vec![from("2013-01-01", Vec::new(), by_scale), from(ALWAYS, Vec::new(), times(own("salary"), share))];
            variable(Float, PERSON, Unit::Month, formulas)
        }
        _ => unreachable!(),
    };
    let variables = COUNTRY.iter().map(declared).collect();
    Ok(Rules { variables, parameters: names.parameters })
}

/// An axis as a run file has it: the value that it moves, its group, and its bounds in thousandths.
struct Said {
    given: Given,
    group: usize,
    min: i64,
    max: i64,
}

/// The parts of a run file together: an axis moves what is given for its key, or stands beside it.
fn run_of(rules: Rules, homes: Vec<Home>, mut given: Vec<Given>, counts: Vec<u64>, said: &[Said], filter: Vec<Condition>, columns: Vec<Key>) -> Run {
    given.extend(said.iter().map(|axis| axis.given));
    given.sort_by_key(|given| (given.key.period.months(), given.key.period.start_day()));
    let moving = |axis: &Said| Moving {
        axis: Axis::new(axis.min, axis.max, counts[axis.group] as i64),
        group: axis.group,
        given: given.iter().position(|given| given.key == axis.given.key).unwrap(),
    };
    let axes = said.iter().map(moving).collect();
    let persons = vec![(0..homes.len() as u32).collect()];
    Run { rules, homes, persons, given, counts, axes, filter, columns }
}

fn household_run(count: u64, max: i64) -> io::Result<Run> {
    let now = period("2016-11");
    let key = |variable| Key { variable, member: 0, period: now };
    let given = Given { key: key(0), value: Value::Number(Fraction::ZERO), sharing: Sharing::None };
    let axis = Said { given, group: 0, min: 0, max };
    let filter = vec![Condition { key: key(1), comparison: Comparison::Greater, constant: Fraction::ZERO }];
    let home = Home { group: 0, role: Role { role: 0, subrole: Some(0) } };
    Ok(run_of(household()?, vec![home], Vec::new(), vec![count], &[axis], filter, vec![key(1)]))
}

fn country_run(count: u64) -> io::Result<Run> {
    let (now, year) = (period("2017-05"), period("2017"));
    let key = |name, member, period| Key { variable: COUNTRY.iter().position(|other| *other == name).unwrap(), member, period };
    let whole = |numerator| Fraction { numerator, denominator: 1 };
    let of_year = |name, member, value| Given { key: key(name, member, year), value, sharing: Sharing::Dispatch };
    let nothing = Value::Number(Fraction::ZERO);
    let given = vec![
        of_year("age", 0, Value::Number(whole(35))),
        of_year("zone", 0, CITY),
        of_year("floor_area", 0, Value::Number(whole(90))),
    ];
    let of_month = |name| Given { key: key(name, 0, now), value: nothing, sharing: Sharing::None };
    let salary = Given { key: key("salary", 0, year), value: nothing, sharing: Sharing::Divide };
    let said = [
        Said { given: salary, group: 0, min: 0, max: 56_700_000 },
        Said { given: of_month("rent"), group: 0, min: 600_000, max: 915_000 },
        Said { given: of_year("age", 1, nothing), group: 1, min: 3_000, max: 18_000 },
        Said { given: of_month("capital_returns"), group: 2, min: 0, max: 1_250 * (count as i64 - 1) },
    ];
    let at_least = |name, constant| Condition { key: key(name, 0, now), comparison: Comparison::GreaterEqual, constant: whole(constant) };
    let filter = vec![at_least("salary", 300), at_least("disposable_income", 2000)];
    let columns = ["disposable_income", "income_tax", "parenting_allowance", "social_contribution"].map(|name| key(name, 0, now));
    let homes = vec![Home { group: 0, role: HEAD }, Home { group: 0, role: CHILD }];
    Ok(run_of(country()?, homes, given, vec![64, 16, count], &said, filter, columns.to_vec()))
}

fn main() -> io::Result<()> {
    let words: Vec<String> = std::env::args().skip(1).collect();
    let count: u64 = words[1].parse().map_err(io::Error::other)?;
    let run = match words[0].as_str() {
        "household" => household_run(count, 1000 * (count as i64 - 1))?,
        "household-fractions" => household_run(count, 800_000)?,
        _ => country_run(count)?,
    };
    let from = match words.get(3) {
        Some(word) => word.parse().map_err(io::Error::other)?,
        None => 0,
    };
    let peer = std::env::var("FISCA_PEER").unwrap_or_default();
    let mut out = BufWriter::with_capacity(1 << 16, io::stdout().lock());
    match peer.as_str() {
        "wheels" | "machine" => run.write_turning(from, peer == "machine", &mut out)?,
        _ => run.write(from, peer == "kept", &mut out)?,
    }
    out.flush()
}
