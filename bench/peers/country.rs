// Values of examples/country worked out in plain Rust, for bench/peers/tests.rs: its variables with their formulas as
// typed trees, and an evaluator by recursion that remembers what formulas gave, with how many keys stand below each.
use crate::params::{CalcFault, Day, Fraction, NumFault, ParamTree, SourceFile, Value as Found, find, reduce};
use crate::periods::{FoldHasher, Period, TimeFault, Unit};
use std::collections::HashMap;
use std::hash::BuildHasher;

const MOST_KEYS: usize = 100;
const ONE: Fraction = Fraction { numerator: 1, denominator: 1 };
pub const HOUSEHOLD: usize = 0;
pub const PERSON: usize = 1;
const HEAD: usize = 0;
const ADULT: usize = 1;
const CHILD: usize = 2;
const OCCUPANCY: &[&str] = &["owner", "tenant", "free_lodger", "homeless"];
const ZONE: &[&str] = &["city", "country"];

/// Makes the hasher of Rattle's maps.
#[derive(Clone, Copy, Default)]
pub struct Folds;

impl BuildHasher for Folds {
    type Hasher = FoldHasher;

    fn build_hasher(&self) -> FoldHasher {
        FoldHasher { state: 0x243f_6a88_85a3_08d3 }
    }
}

pub type Map<K, V> = HashMap<K, V, Folds>;

#[derive(Clone, Copy, PartialEq, Eq, Hash)]
pub struct Key {
    pub variable: usize,
    pub member: u32,
    pub period: Period,
}

#[derive(Clone, Copy, PartialEq)]
pub enum Value {
    Number(Fraction),
    Bool(bool),
    Member(usize),
}

#[derive(Clone, Copy, PartialEq)]
pub enum FaultKind {
    ZeroDivisor,
    TooWide,
    ParameterUndefined,
    BadScale,
    PeriodMismatch,
    PeriodOutOfRange,
    Cycle,
    TooDeep,
}

#[derive(Clone, Copy)]
pub struct Fault {
    pub kind: FaultKind,
    pub key: Key,
}

impl FaultKind {
    pub fn name(self) -> &'static str {
        match self {
            FaultKind::ZeroDivisor => "ZeroDivisor",
            FaultKind::TooWide => "TooWide",
            FaultKind::ParameterUndefined => "ParameterUndefined",
            FaultKind::BadScale => "BadScale",
            FaultKind::PeriodMismatch => "PeriodMismatch",
            FaultKind::PeriodOutOfRange => "PeriodOutOfRange",
            FaultKind::Cycle => "Cycle",
            FaultKind::TooDeep => "TooDeep",
        }
    }
}

#[derive(Clone, Copy)]
enum Arithmetic {
    Add,
    Subtract,
    Multiply,
    Max,
}

#[derive(Clone, Copy)]
enum Comparison {
    Less,
    LessEqual,
    Greater,
    GreaterEqual,
    Equal,
}

#[derive(Clone, Copy)]
enum Move {
    FirstMonth,
    OffsetBy(i64, Unit),
}

#[derive(Clone, Copy)]
enum Whom {
    Own,
    Person,
    Holder(usize),
}

#[derive(Clone, Copy)]
enum Asking {
    Plain,
    Add,
    Divide,
}

struct Ask {
    variable: usize,
    whom: Whom,
    asking: Asking,
    moves: Vec<Move>,
}

struct Pair {
    left: Node,
    right: Node,
}

/// A parameter for each pair of members of two Enums.
struct Chosen {
    first: Node,
    second: Node,
    places: Vec<Vec<usize>>,
}

enum Node {
    Literal(Fraction),
    Local(usize),
    Ask(Box<Ask>),
    Sum(Option<usize>, Box<Node>),
    Any(Option<usize>, Box<Node>),
    Count(usize),
    Opposite(Box<Node>),
    Arithmetic(Arithmetic, Box<Pair>),
    Or(Box<Pair>),
    And(Box<Pair>),
    Comparison(Comparison, Box<Pair>),
    IsMember(usize, Box<Node>),
    Choose(Box<Node>, Box<Pair>),
    Parameter(usize),
    Chosen(Box<Chosen>),
    Scale(usize, Box<Node>),
}

#[derive(Clone, Copy, PartialEq)]
pub enum Kind {
    Float,
    Int,
    Bool,
    Enum(&'static [&'static str]),
}

#[derive(Clone, Copy, PartialEq)]
pub enum Sharing {
    Divide,
    Dispatch,
}

struct Formula {
    start: Day,
    locals: Vec<Node>,
    result: Node,
}

pub struct Variable {
    pub name: &'static str,
    pub kind: Kind,
    pub entity: usize,
    pub unit: Unit,
    pub sharing: Option<Sharing>,
    end: Option<Day>,
    pub default: Value,
    formulas: Vec<Formula>,
}

pub struct Rules {
    pub variables: Vec<Variable>,
    pub places: Map<&'static str, usize>,
    parameters: ParamTree,
}

#[derive(Clone, Copy)]
pub struct Home {
    pub group: u32,
    pub role: usize,
}

pub struct Situation {
    /// The names of households and of persons.
    pub names: [Vec<String>; 2],
    pub homes: Vec<Home>,
    pub rosters: Vec<Vec<u32>>,
    pub inputs: Map<Key, Value>,
}

fn number(value: Value) -> Fraction {
    match value {
        Value::Number(number) => number,
        Value::Bool(true) => ONE,
        Value::Bool(false) => Fraction::ZERO,
        Value::Member(_) => unreachable!(),
    }
}

fn truth(value: Value) -> bool {
    match value {
        Value::Bool(truth) => truth,
        Value::Number(_) | Value::Member(_) => unreachable!(),
    }
}

fn member(value: Value) -> usize {
    match value {
        Value::Member(place) => place,
        Value::Number(_) | Value::Bool(_) => unreachable!(),
    }
}

#[cold]
fn told(fault: NumFault, key: &Key) -> Fault {
    let kind = if fault == NumFault::ZeroDivisor { FaultKind::ZeroDivisor } else { FaultKind::TooWide };
    Fault { kind, key: *key }
}

/// The day on which a period starts, as parameters and formulas are dated.
fn day_of(period: Period) -> Option<Day> {
    let day = period.start()?;
    Some(Day::from(day.year) << 16 | Day::from(day.month) << 8 | Day::from(day.day))
}

/// Whether a variable has a value at this period.
pub fn fits(unit: Unit, period: Period) -> bool {
    match unit {
        Unit::Eternity => true,
        _ => period.unit() == unit && period.size() == 1,
    }
}

fn moved(moves: &[Move], period: Period) -> Result<Period, TimeFault> {
    moves.iter().try_fold(period, |here, step| match step {
        Move::FirstMonth => here.first_month(),
        Move::OffsetBy(count, unit) => here.offset_by(*count, *unit),
    })
}

fn compared(comparison: Comparison, left: Fraction, right: Fraction) -> bool {
    let order = left.cmp(&right);
    match comparison {
        Comparison::Less => order.is_lt(),
        Comparison::LessEqual => order.is_le(),
        Comparison::Greater => order.is_gt(),
        Comparison::GreaterEqual => order.is_ge(),
        Comparison::Equal => order.is_eq(),
    }
}

fn cast(kind: Kind, value: Value, key: &Key) -> Result<Value, Fault> {
    match kind {
        Kind::Float => Ok(Value::Number(number(value))),
        Kind::Int => {
            let Fraction { numerator, denominator } = number(value);
            let whole = numerator / denominator as i64;
            if i32::try_from(whole).is_err() {
                return Err(Fault { kind: FaultKind::TooWide, key: *key });
            }
            Ok(Value::Number(Fraction { numerator: whole, denominator: 1 }))
        }
        Kind::Bool => Ok(Value::Bool(number(value).numerator != 0)),
        Kind::Enum(_) => Ok(value),
    }
}

/// Of the formulas that start by the day the one that starts last; none past the variable's end.
fn in_force(variable: &Variable, period: Period) -> Option<&Formula> {
    if variable.formulas.is_empty() {
        return None;
    }
    let day = day_of(period)?;
    if variable.end.is_some_and(|end| end < day) {
        return None;
    }
    variable.formulas.iter().filter(|formula| formula.start <= day).max_by_key(|formula| formula.start)
}

/// What is remembered of a key: its value, and how many keys stand in the longest chain from it on.
#[derive(Clone, Copy)]
struct Known {
    value: Value,
    height: usize,
}

/// For whom a formula is worked out, and its locals.
struct Frame<'r> {
    key: Key,
    locals: &'r [Node],
}

pub struct Evaluator<'r, 's> {
    rules: &'r Rules,
    situation: &'s Situation,
    known: Map<Key, Known>,
    keys: Vec<Key>,
    /// The height of the highest key that the formula asked for so far.
    highest: usize,
}

impl<'r, 's> Evaluator<'r, 's> {
    pub fn new(rules: &'r Rules, situation: &'s Situation) -> Evaluator<'r, 's> {
        Evaluator { rules, situation, known: Map::default(), keys: Vec::new(), highest: 0 }
    }

    pub fn value(&mut self, key: Key) -> Result<Value, Fault> {
        self.keys.clear();
        self.below(key)
    }

    fn too_deep(&self, key: Key) -> Fault {
        Fault { kind: FaultKind::TooDeep, key: self.keys.first().copied().unwrap_or(key) }
    }

    /// The value of a key below others.
    fn below(&mut self, key: Key) -> Result<Value, Fault> {
        let rules = self.rules;
        let variable = &rules.variables[key.variable];
        if !fits(variable.unit, key.period) {
            return Err(Fault { kind: FaultKind::PeriodMismatch, key });
        }
        // what has no formula is never remembered and never waits
        if !variable.formulas.is_empty() {
            if let Some(known) = self.known.get(&key).copied() {
                if self.keys.len() + known.height > MOST_KEYS {
                    return Err(self.too_deep(key));
                }
                self.highest = self.highest.max(known.height);
                return Ok(known.value);
            }
            if self.keys.contains(&key) {
                return Err(Fault { kind: FaultKind::Cycle, key });
            }
        }
        if self.keys.len() >= MOST_KEYS {
            return Err(self.too_deep(key));
        }
        if let Some(value) = self.situation.inputs.get(&key) {
            self.highest = self.highest.max(1);
            return Ok(*value);
        }
        let Some(formula) = in_force(variable, key.period) else {
            self.highest = self.highest.max(1);
            return Ok(variable.default);
        };
        let before = std::mem::take(&mut self.highest);
        self.keys.push(key);
        let frame = Frame { key, locals: &formula.locals };
        let result = self.node(&formula.result, &frame, None);
        self.keys.pop();
        let value = cast(variable.kind, result?, &key)?;
        let height = self.highest + 1;
        self.highest = before.max(height);
        self.known.insert(key, Known { value, height });
        Ok(value)
    }

    fn node(&mut self, node: &'r Node, frame: &Frame<'r>, person: Option<u32>) -> Result<Value, Fault> {
        match node {
            Node::Literal(number) => Ok(Value::Number(*number)),
            Node::Local(place) => self.node(&frame.locals[*place], frame, person),
            Node::Ask(ask) => self.ask(ask, frame, person),
            Node::Sum(role, values) => {
                let mut sum = Fraction::ZERO;
                let mut place = 0;
                while let Some((person, behind)) = self.next(frame.key.member, *role, place) {
                    place = behind;
                    let value = number(self.node(values, frame, Some(person))?);
                    sum = sum.add(value).map_err(|fault| told(fault, &frame.key))?;
                }
                Ok(Value::Number(sum))
            }
            Node::Any(role, values) => {
                let (mut any, mut place) = (false, 0);
                while let Some((person, behind)) = self.next(frame.key.member, *role, place) {
                    place = behind;
                    any |= truth(self.node(values, frame, Some(person))?);
                }
                Ok(Value::Bool(any))
            }
            Node::Count(role) => {
                let (mut count, mut place) = (0, 0);
                while let Some((_, behind)) = self.next(frame.key.member, Some(*role), place) {
                    (place, count) = (behind, count + 1);
                }
                Ok(Value::Number(Fraction { numerator: count, denominator: 1 }))
            }
            Node::Opposite(operand) => Ok(Value::Bool(!truth(self.node(operand, frame, person)?))),
            Node::Arithmetic(operation, pair) => {
                let left = number(self.node(&pair.left, frame, person)?);
                let right = number(self.node(&pair.right, frame, person)?);
                let result = match operation {
                    Arithmetic::Add => left.add(right),
                    Arithmetic::Subtract => left.sub(right),
                    Arithmetic::Multiply => left.mul(right),
                    Arithmetic::Max => Ok(left.max(right)),
                };
                result.map(Value::Number).map_err(|fault| told(fault, &frame.key))
            }
            Node::Or(pair) => {
                let left = truth(self.node(&pair.left, frame, person)?);
                let right = truth(self.node(&pair.right, frame, person)?);
                Ok(Value::Bool(left || right))
            }
            Node::And(pair) => {
                let left = truth(self.node(&pair.left, frame, person)?);
                let right = truth(self.node(&pair.right, frame, person)?);
                Ok(Value::Bool(left && right))
            }
            Node::Comparison(comparison, pair) => {
                let left = number(self.node(&pair.left, frame, person)?);
                let right = number(self.node(&pair.right, frame, person)?);
                Ok(Value::Bool(compared(*comparison, left, right)))
            }
            Node::IsMember(place, operand) => Ok(Value::Bool(member(self.node(operand, frame, person)?) == *place)),
            Node::Choose(condition, pair) => {
                let chosen = if truth(self.node(condition, frame, person)?) { &pair.left } else { &pair.right };
                self.node(chosen, frame, person)
            }
            Node::Parameter(place) => self.parameter(*place, frame),
            Node::Chosen(x) => {
                let first = member(self.node(&x.first, frame, person)?);
                let second = member(self.node(&x.second, frame, person)?);
                self.parameter(x.places[first][second], frame)
            }
            Node::Scale(place, base) => {
                let day = day_of(frame.key.period).unwrap();
                let base = number(self.node(base, frame, person)?);
                match self.rules.parameters.calc(*place, day, base) {
                    Ok(sum) => Ok(Value::Number(sum)),
                    Err(CalcFault::Undefined) => Err(Fault { kind: FaultKind::ParameterUndefined, key: frame.key }),
                    Err(CalcFault::BadScale) => Err(Fault { kind: FaultKind::BadScale, key: frame.key }),
                    Err(CalcFault::Number(fault)) => Err(told(fault, &frame.key)),
                }
            }
        }
    }

    fn parameter(&self, place: usize, frame: &Frame<'r>) -> Result<Value, Fault> {
        match self.rules.parameters.value_at(place, day_of(frame.key.period).unwrap()) {
            Some(Found::Number(number)) => Ok(Value::Number(number)),
            Some(Found::Bool(truth)) => Ok(Value::Bool(truth)),
            None => Err(Fault { kind: FaultKind::ParameterUndefined, key: frame.key }),
        }
    }

    fn ask(&mut self, ask: &Ask, frame: &Frame<'r>, person: Option<u32>) -> Result<Value, Fault> {
        let Ok(period) = moved(&ask.moves, frame.key.period) else {
            return Err(Fault { kind: FaultKind::PeriodOutOfRange, key: frame.key });
        };
        let member = match ask.whom {
            Whom::Own => frame.key.member,
            Whom::Person => person.unwrap(),
            Whom::Holder(role) => match self.next(frame.key.member, Some(role), 0) {
                Some((person, _)) => person,
                None => return Ok(Value::Number(Fraction::ZERO)),
            },
        };
        let (variable, unit) = (ask.variable, self.rules.variables[ask.variable].unit);
        let mismatch = Fault { kind: FaultKind::PeriodMismatch, key: Key { variable, member, period } };
        match ask.asking {
            Asking::Plain => self.below(Key { variable, member, period }),
            Asking::Add if period.unit() < unit => Err(mismatch),
            Asking::Add => {
                let mut sum = Fraction::ZERO;
                for place in 0..period.sub_count(unit).unwrap_or(0) {
                    let value = self.below(Key { variable, member, period: period.sub(unit, place) })?;
                    sum = sum.add(number(value)).map_err(|fault| told(fault, &frame.key))?;
                }
                Ok(Value::Number(sum))
            }
            Asking::Divide => {
                if unit != Unit::Year || !(fits(Unit::Month, period) || fits(Unit::Year, period)) {
                    return Err(mismatch);
                }
                let year = period.this_year().unwrap();
                let whole = number(self.below(Key { variable, member, period: year })?);
                let parts: i128 = if period.unit() == Unit::Month { 12 } else { 1 };
                let size = u128::from(whole.numerator.unsigned_abs());
                reduce(whole.numerator < 0, size, u128::from(whole.denominator) * parts.unsigned_abs()).map(Value::Number).map_err(|fault| told(fault, &frame.key))
            }
        }
    }

    /// The next person of a group who has a role, from a place on, and the place behind.
    fn next(&self, group: u32, role: Option<usize>, place: usize) -> Option<(u32, usize)> {
        let persons = &self.situation.rosters[group as usize];
        let has = |person: u32| role.is_none_or(|wanted| self.situation.homes[person as usize].role == wanted);
        (place..persons.len()).find(|place| has(persons[*place])).map(|place| (persons[place], place + 1))
    }
}

// The rules of the country.

fn two(left: Node, right: Node) -> Box<Pair> {
    Box::new(Pair { left, right })
}

fn add(left: Node, right: Node) -> Node {
    Node::Arithmetic(Arithmetic::Add, two(left, right))
}

fn subtract(left: Node, right: Node) -> Node {
    Node::Arithmetic(Arithmetic::Subtract, two(left, right))
}

fn multiply(left: Node, right: Node) -> Node {
    Node::Arithmetic(Arithmetic::Multiply, two(left, right))
}

fn compare(comparison: Comparison, left: Node, right: Node) -> Node {
    Node::Comparison(comparison, two(left, right))
}

fn whole(numerator: i64) -> Node {
    Node::Literal(Fraction { numerator, denominator: 1 })
}

fn choose(condition: Node, left: Node, right: Node) -> Node {
    Node::Choose(Box::new(condition), two(left, right))
}

fn since(year: u32, month: u32) -> Day {
    year << 16 | month << 8 | 1
}

/// The names of the variables in the order of the modules, with what is declared of each.
const DECLARED: &[(&str, Kind, usize, Unit, Option<Sharing>)] = &[
    ("basic_income", Kind::Float, PERSON, Unit::Month, None),
    ("pension", Kind::Float, PERSON, Unit::Month, None),
    ("housing_allowance", Kind::Float, HOUSEHOLD, Unit::Month, None),
    ("parenting_allowance", Kind::Float, HOUSEHOLD, Unit::Month, None),
    ("zone_supplement", Kind::Float, HOUSEHOLD, Unit::Month, None),
    ("meal_cost", Kind::Float, PERSON, Unit::Day, None),
    ("meals", Kind::Float, HOUSEHOLD, Unit::Month, None),
    ("age", Kind::Int, PERSON, Unit::Month, Some(Sharing::Dispatch)),
    ("is_adult", Kind::Bool, PERSON, Unit::Month, None),
    ("is_retired", Kind::Bool, PERSON, Unit::Month, None),
    ("minors", Kind::Int, HOUSEHOLD, Unit::Month, None),
    ("present", Kind::Int, PERSON, Unit::Day, Some(Sharing::Dispatch)),
    ("occupancy", Kind::Enum(OCCUPANCY), HOUSEHOLD, Unit::Month, Some(Sharing::Dispatch)),
    ("zone", Kind::Enum(ZONE), HOUSEHOLD, Unit::Month, Some(Sharing::Dispatch)),
    ("rent", Kind::Float, HOUSEHOLD, Unit::Month, Some(Sharing::Dispatch)),
    ("floor_area", Kind::Float, HOUSEHOLD, Unit::Month, Some(Sharing::Dispatch)),
    ("housing_tax", Kind::Float, HOUSEHOLD, Unit::Year, None),
    ("housing_tax_of_month", Kind::Float, HOUSEHOLD, Unit::Month, None),
    ("salary", Kind::Float, PERSON, Unit::Month, Some(Sharing::Divide)),
    ("capital_returns", Kind::Float, PERSON, Unit::Month, Some(Sharing::Divide)),
    ("disposable_income", Kind::Float, HOUSEHOLD, Unit::Month, None),
    ("disposable_income_of_year", Kind::Float, HOUSEHOLD, Unit::Year, None),
    ("salary_of_head", Kind::Float, HOUSEHOLD, Unit::Month, None),
    ("salary_rise", Kind::Float, PERSON, Unit::Month, None),
    ("income_tax", Kind::Float, PERSON, Unit::Month, None),
    ("social_contribution", Kind::Float, PERSON, Unit::Month, None),
    ("tax_class", Kind::Int, PERSON, Unit::Month, None),
];

fn place_of(name: &str) -> usize {
    DECLARED.iter().position(|declared| declared.0 == name).unwrap()
}

fn ask(name: &str, whom: Whom, asking: Asking, moves: Vec<Move>) -> Node {
    Node::Ask(Box::new(Ask { variable: place_of(name), whom, asking, moves }))
}

fn own(name: &str) -> Node {
    ask(name, Whom::Own, Asking::Plain, Vec::new())
}

fn of_each(name: &str) -> Node {
    ask(name, Whom::Person, Asking::Plain, Vec::new())
}

/// The formulas of a variable: the day from which each is in force, its locals and what it returns.
fn formulas_of(name: &str, parameters: &ParamTree) -> Vec<Formula> {
    let node = |path: &str| find(parameters, &format!("parameters/{path}.yaml")).unwrap();
    let parameter = |path: &str| Node::Parameter(node(path));
    let one = |start: Day, locals: Vec<Node>, result: Node| vec![Formula { start, locals, result }];
    let simple = |result: Node| one(since(1, 1), Vec::new(), result);
    let scale = |path: &str| Node::Scale(node(path), Box::new(own("salary")));
    match name {
        "basic_income" => {
            let now = multiply(own("is_adult"), parameter("benefits/basic_income"));
            let without = compare(Comparison::Equal, own("salary"), whole(0));
            let first = multiply(multiply(own("is_adult"), Node::Local(0)), parameter("benefits/basic_income"));
            vec![Formula { start: since(2016, 12), locals: Vec::new(), result: now }, Formula { start: since(2015, 12), locals: vec![without], result: first }]
        }
        "pension" => simple(multiply(own("is_retired"), parameter("benefits/pension"))),
        "housing_allowance" => {
            let is_tenant = Node::IsMember(1, Box::new(Node::Local(0)));
            let amount = multiply(multiply(Node::Local(1), own("rent")), parameter("benefits/housing_allowance"));
            one(since(1980, 1), vec![own("occupancy"), is_tenant], amount)
        }
        "parenting_allowance" => {
            let of = |name: &str| parameter(&format!("benefits/parenting_allowance/{name}"));
            let income = Node::Sum(None, Box::new(of_each("salary")));
            let is_poor = compare(Comparison::LessEqual, Node::Local(0), of("income_threshold"));
            let is_alone = compare(Comparison::Equal, add(Node::Count(HEAD), Node::Count(ADULT)), whole(1));
            let is_small = compare(Comparison::Less, of_each("age"), whole(6));
            let has_small = Node::Any(Some(CHILD), Box::new(is_small));
            let has_minors = compare(Comparison::Greater, own("minors"), whole(0));
            let is_in_need = Node::Or(two(Node::Local(1), Node::And(two(Node::Local(2), Node::Local(3)))));
            let is_entitled = Node::And(two(has_minors, is_in_need));
            one(since(1, 1), vec![income, is_poor, is_alone, has_small, is_entitled], multiply(Node::Local(4), of("amount")))
        }
        "zone_supplement" => {
            let tree = node("benefits/zone_supplement");
            let below = |zone: &&str| OCCUPANCY.iter().map(|name| parameters.child(parameters.child(tree, zone).unwrap(), name).unwrap()).collect();
            let places = ZONE.iter().map(below).collect();
            simple(Node::Chosen(Box::new(Chosen { first: own("zone"), second: own("occupancy"), places })))
        }
        "meal_cost" => simple(multiply(own("present"), parameter("benefits/meal"))),
        "meals" => simple(Node::Sum(Some(CHILD), Box::new(ask("meal_cost", Whom::Person, Asking::Add, Vec::new())))),
        "is_adult" => simple(compare(Comparison::GreaterEqual, own("age"), parameter("general/age_of_majority"))),
        "is_retired" => simple(compare(Comparison::GreaterEqual, own("age"), parameter("general/age_of_retirement"))),
        "minors" => simple(Node::Sum(Some(CHILD), Box::new(Node::Opposite(Box::new(of_each("is_adult")))))),
        "housing_tax" => {
            let in_january = |name: &str| ask(name, Whom::Own, Asking::Plain, vec![Move::FirstMonth]);
            let of = |name: &str| parameter(&format!("taxes/housing_tax/{name}"));
            let amount = Node::Arithmetic(Arithmetic::Max, two(multiply(in_january("floor_area"), of("rate")), of("minimal_amount")));
            let lives_as = |place: usize| Node::IsMember(place, Box::new(Node::Local(1)));
            let taxed = Node::Or(two(lives_as(0), lives_as(1)));
            one(since(1, 1), vec![amount, in_january("occupancy"), taxed], choose(Node::Local(2), Node::Local(0), whole(0)))
        }
        "housing_tax_of_month" => simple(ask("housing_tax", Whom::Own, Asking::Divide, Vec::new())),
        "disposable_income" => {
            let earned = add(of_each("salary"), of_each("capital_returns"));
            let paid = add(of_each("income_tax"), of_each("social_contribution"));
            let received = add(of_each("basic_income"), of_each("pension"));
            let persons = Node::Sum(None, Box::new(subtract(add(Node::Local(0), Node::Local(2)), Node::Local(1))));
            let with = ["housing_allowance", "parenting_allowance", "zone_supplement"].iter().fold(persons, |sum, name| add(sum, own(name)));
            one(since(1, 1), vec![earned, paid, received], subtract(subtract(with, own("meals")), own("housing_tax_of_month")))
        }
        "disposable_income_of_year" => simple(ask("disposable_income", Whom::Own, Asking::Add, Vec::new())),
        "salary_of_head" => simple(ask("salary", Whom::Holder(HEAD), Asking::Plain, Vec::new())),
        "salary_rise" => {
            let before = ask("salary", Whom::Own, Asking::Plain, vec![Move::OffsetBy(-1, Unit::Year)]);
            one(since(1, 1), vec![before], Node::Arithmetic(Arithmetic::Max, two(subtract(own("salary"), Node::Local(0)), whole(0))))
        }
        "income_tax" => simple(scale("taxes/income_tax")),
        "social_contribution" => {
            let share = multiply(own("salary"), Node::Literal(Fraction { numerator: 9, denominator: 100 }));
            vec![
                Formula { start: since(2013, 1), locals: Vec::new(), result: scale("taxes/social_contribution") },
                Formula { start: since(1, 1), locals: Vec::new(), result: share },
            ]
        }
        "tax_class" => {
            let up_to = |bound| compare(Comparison::LessEqual, Node::Local(0), whole(bound));
            let lower = choose(up_to(1200), whole(1), choose(up_to(4000), whole(2), whole(3)));
            one(since(1, 1), vec![own("salary")], choose(compare(Comparison::Equal, Node::Local(0), whole(0)), whole(0), lower))
        }
        _ => Vec::new(),
    }
}

/// The variables that the tests speak of; those of days and texts are left out.
pub fn rules(files: &[SourceFile]) -> Rules {
    let parameters = ParamTree::read(files).ok().unwrap();
    let variable = |declared: &(&'static str, Kind, usize, Unit, Option<Sharing>)| {
        let (name, kind, entity, unit, sharing) = *declared;
        let default = match kind {
            Kind::Float | Kind::Int => Value::Number(Fraction::ZERO),
            Kind::Bool => Value::Bool(false),
            Kind::Enum(_) => Value::Member(if name == "occupancy" { 1 } else { 0 }),
        };
        let end = if name == "housing_allowance" { Some(2016 << 16 | 11 << 8 | 30) } else { None };
        Variable { name, kind, entity, unit, sharing, end, default, formulas: formulas_of(name, &parameters) }
    };
    let variables = DECLARED.iter().map(variable).collect();
    let places = DECLARED.iter().enumerate().map(|(place, declared)| (declared.0, place)).collect();
    Rules { variables, places, parameters }
}
