// What the peers that work formulas out share, by `include!`: keys, values, typed formulas as trees, and their
// evaluation by recursion over any inputs, with a memory of what formulas gave or with none. Numbers are exact
// fractions, and at most a hundred keys are asked for below one another. Who includes it has the modules `params`
// (`params.rs`) and `periods` (`periods.rs`), and of these `CalcFault`, `Day`, `Fraction`, `NumFault`, `ParamTree`,
// `reduce`, `Period`, `TimeFault` and `Unit`.

const MOST_KEYS: usize = 100;
const ONE: Fraction = Fraction { numerator: 1, denominator: 1 };

#[derive(Clone, Copy, PartialEq, Eq, Hash)]
struct Key {
    variable: usize,
    member: u32,
    period: Period,
}

#[derive(Clone, Copy)]
#[allow(dead_code)]
enum Value {
    Number(Fraction),
    Bool(bool),
    Member(usize),
}

#[derive(Clone, Copy)]
#[allow(dead_code)]
enum Fault {
    ZeroDivisor(Key),
    TooWide(Key),
    ParameterUndefined(Key),
    BadScale(Key),
    NoMember(Key),
    PeriodMismatch(Key),
    PeriodOutOfRange(Key),
    Cycle(Key),
    TooDeep(Key),
}

#[derive(Clone, Copy)]
#[allow(dead_code)]
enum Arithmetic {
    Add,
    Subtract,
    Multiply,
    Divide,
    Min,
    Max,
}

#[derive(Clone, Copy)]
#[allow(dead_code)]
enum Logic {
    Or,
    And,
}

#[derive(Clone, Copy)]
#[allow(dead_code)]
enum Comparison {
    Less,
    LessEqual,
    Greater,
    GreaterEqual,
    Equal,
    NotEqual,
}

#[derive(Clone, Copy)]
#[allow(dead_code)]
enum Total {
    Sum,
    Min,
    Max,
    Any,
    All,
}

#[derive(Clone, Copy)]
#[allow(dead_code)]
enum Move {
    ThisYear,
    FirstMonth,
    LastMonth,
    LastYear,
    Offset(i64),
    OffsetBy(i64, Unit),
}

#[derive(Clone, Copy, PartialEq)]
struct Role {
    role: usize,
    subrole: Option<usize>,
}

#[derive(Clone, Copy)]
#[allow(dead_code)]
enum Whom {
    Own,
    Group(usize),
    Person,
    Holder(Role),
}

#[derive(Clone, Copy)]
#[allow(dead_code)]
enum Asking {
    Plain,
    Add,
    Divide,
}

struct Ask {
    variable: usize,
    whom: Whom,
    asking: Asking,
    moves: Vec<Move>,
}

struct Totalled {
    role: Option<Role>,
    values: Node,
}

struct Parameter {
    place: usize,
    moves: Vec<Move>,
}

/// Of some parameters the one that members of Enums choose: the first turns slowest.
struct Chosen {
    indices: Vec<Index>,
    places: Vec<usize>,
    moves: Vec<Move>,
}

/// A member of an Enum that chooses, and how many members the Enum has.
struct Index {
    member: Node,
    size: usize,
}

struct ScaleSum {
    place: usize,
    moves: Vec<Move>,
    base: Node,
}

struct Pair {
    left: Node,
    right: Node,
}

#[allow(dead_code)]
enum Node {
    Literal(Fraction),
    Truth(bool),
    Member(usize),
    Local(usize),
    Ask(Box<Ask>),
    Count(Option<Role>),
    Total(Total, Box<Totalled>),
    Negative(Box<Node>),
    Opposite(Box<Node>),
    Arithmetic(Arithmetic, Box<Pair>),
    Logic(Logic, Box<Pair>),
    Comparison(Comparison, Box<Pair>),
    Same(Box<Pair>),
    Choose(Box<Node>, Box<Pair>),
    Parameter(Box<Parameter>),
    Chosen(Box<Chosen>),
    Scale(Box<ScaleSum>),
}

#[derive(Clone, Copy)]
#[allow(dead_code)]
enum Kind {
    Float,
    Int,
    Bool,
    Enum,
}

struct Formula {
    start: Day,
    locals: Vec<Node>,
    result: Node,
}

#[allow(dead_code)]
struct Variable {
    kind: Kind,
    entity: usize,
    unit: Unit,
    end: Option<Day>,
    default: Value,
    formulas: Vec<Formula>,
}

struct Rules {
    variables: Vec<Variable>,
    parameters: ParamTree,
}

#[derive(Clone, Copy)]
struct Home {
    group: u32,
    role: Role,
}

/// The values that are given, by their keys.
trait Inputs {
    fn get(&self, key: &Key) -> Option<Value>;

    /// The wheels that move a variable's inputs, as bits.
    fn wheels(&self, _variable: usize) -> u16 {
        0
    }
}

/// A situation with one kind of groups.
struct Situation<I> {
    inputs: I,
    homes: Vec<Home>,
    persons: Vec<Vec<u32>>,
}

/// What a formula gave, the height of its key: one more than the greatest height of the keys that it asks for, and the wheels that its work read, as bits.
#[derive(Clone, Copy)]
#[allow(dead_code)]
struct Known {
    value: Value,
    height: u32,
    reads: u16,
}

/// A memory of what formulas gave, by their keys.
trait Recall {
    const REMEMBERS: bool;
    fn look(&self, key: &Key) -> Option<Known>;
    fn keep(&mut self, key: Key, known: Known);
}

fn number(value: Value) -> Fraction {
    match value {
        Value::Number(number) => number,
        Value::Bool(true) => ONE,
        Value::Bool(false) => Fraction::ZERO,
        Value::Member(_) => unreachable!(),
    }
}

fn truth(value: Value) -> bool {
    match value {
        Value::Bool(truth) => truth,
        Value::Number(_) | Value::Member(_) => unreachable!(),
    }
}

fn member(value: Value) -> usize {
    match value {
        Value::Member(place) => place,
        Value::Number(_) | Value::Bool(_) => unreachable!(),
    }
}

fn divided(left: Fraction, right: Fraction) -> Result<Fraction, NumFault> {
    let over = i128::from(left.numerator) * i128::from(right.denominator);
    let under = i128::from(right.numerator) * i128::from(left.denominator);
    reduce((over < 0) != (under < 0), over.unsigned_abs(), under.unsigned_abs())
}

fn computed(operation: Arithmetic, left: Fraction, right: Fraction, key: &Key) -> Result<Value, Fault> {
    let number = match operation {
        Arithmetic::Add => left.add(right),
        Arithmetic::Subtract => left.sub(right),
        Arithmetic::Multiply => left.mul(right),
        Arithmetic::Divide => divided(left, right),
        Arithmetic::Min => Ok(left.min(right)),
        Arithmetic::Max => Ok(left.max(right)),
    };
    number.map(Value::Number).map_err(|fault| told(fault, key))
}

#[cold]
fn told(fault: NumFault, key: &Key) -> Fault {
    match fault {
        NumFault::ZeroDivisor => Fault::ZeroDivisor(*key),
        NumFault::TooWide | NumFault::NotANumber => Fault::TooWide(*key),
    }
}

fn compared(comparison: Comparison, left: Fraction, right: Fraction) -> bool {
    let order = left.cmp(&right);
    match comparison {
        Comparison::Less => order.is_lt(),
        Comparison::LessEqual => order.is_le(),
        Comparison::Greater => order.is_gt(),
        Comparison::GreaterEqual => order.is_ge(),
        Comparison::Equal => order.is_eq(),
        Comparison::NotEqual => order.is_ne(),
    }
}

fn moved(moves: &[Move], period: Period) -> Result<Period, TimeFault> {
    let mut here = period;
    for step in moves {
        here = match step {
            Move::ThisYear => here.this_year()?,
            Move::FirstMonth => here.first_month()?,
            Move::LastMonth => here.first_month()?.offset(-1)?,
            Move::LastYear => here.this_year()?.offset(-1)?,
            Move::Offset(count) => here.offset(*count)?,
            Move::OffsetBy(count, unit) => here.offset_by(*count, *unit)?,
        };
    }
    Ok(here)
}

/// The day on which a period starts, as parameters and formulas are dated.
fn day_of(period: Period) -> Option<Day> {
    let day = period.start()?;
    Some(Day::from(day.year) << 16 | Day::from(day.month) << 8 | Day::from(day.day))
}

/// Whether a variable has a value at this period.
fn fits(unit: Unit, period: Period) -> bool {
    match unit {
        Unit::Eternity => true,
        _ => period.unit() == unit && period.size() == 1,
    }
}

fn cast(kind: Kind, value: Value, key: &Key) -> Result<Value, Fault> {
    match kind {
        Kind::Float => Ok(Value::Number(number(value))),
        Kind::Int => {
            let Fraction { numerator, denominator } = number(value);
            let whole = numerator / denominator as i64;
            if i32::try_from(whole).is_err() {
                return Err(Fault::TooWide(*key));
            }
            Ok(Value::Number(Fraction { numerator: whole, denominator: 1 }))
        }
        Kind::Bool => Ok(Value::Bool(number(value).numerator != 0)),
        Kind::Enum => Ok(value),
    }
}

#[cold]
fn too_long(keys: &[Key], key: Key) -> Fault {
    let chain: Vec<Key> = keys.iter().copied().chain([key]).collect();
    match (0..chain.len()).find(|place| chain[place + 1..].contains(&chain[*place])) {
        Some(place) => Fault::Cycle(chain[place]),
        None => Fault::TooDeep(chain[0]),
    }
}

/// For whom a formula is worked out, and its locals.
struct Frame<'r> {
    key: Key,
    locals: &'r [Node],
}

struct Evaluator<'r, I, R> {
    rules: &'r Rules,
    situation: &'r Situation<I>,
    recall: R,
    keys: Vec<Key>,
    /// The greatest height of the keys that the formula has asked for so far.
    tallest: u32,
    /// The wheels that the work of these keys read.
    reads: u16,
}

impl<'r, I: Inputs, R: Recall> Evaluator<'r, I, R> {
    fn value(&mut self, key: Key) -> Result<Value, Fault> {
        self.keys.clear();
        self.below(key)
    }

    /// The value of a key below others.
    fn below(&mut self, key: Key) -> Result<Value, Fault> {
        let rules = self.rules;
        let variable = match rules.variables.get(key.variable) {
            Some(variable) if fits(variable.unit, key.period) => variable,
            _ => return Err(Fault::PeriodMismatch(key)),
        };
        // inputs are not remembered
        if R::REMEMBERS
            && !variable.formulas.is_empty()
            && let Some(known) = self.recall.look(&key)
        {
            if known.height as usize > MOST_KEYS - self.keys.len() {
                return Err(Fault::TooDeep(*self.keys.first().unwrap_or(&key)));
            }
            self.tallest = self.tallest.max(known.height);
            self.reads |= known.reads;
            return Ok(known.value);
        }
        if let Some(value) = self.situation.inputs.get(&key) {
            return if self.keys.len() < MOST_KEYS { Ok(self.at_hand(value, &key)) } else { Err(too_long(&self.keys, key)) };
        }
        if self.keys.len() >= MOST_KEYS {
            return Err(too_long(&self.keys, key));
        }
        let Some(formula) = in_force(variable, key.period) else {
            return Ok(self.at_hand(variable.default, &key));
        };
        self.keys.push(key);
        let (above, outside) = (self.tallest, self.reads);
        if R::REMEMBERS {
            self.tallest = 0;
            self.reads = self.situation.inputs.wheels(key.variable);
        }
        let frame = Frame { key, locals: &formula.locals };
        let result = self.node(&formula.result, &frame, None, formula.locals.len());
        self.keys.pop();
        let value = cast(variable.kind, result?, &key)?;
        if R::REMEMBERS {
            let (height, reads) = (self.tallest + 1, self.reads);
            self.tallest = above.max(height);
            self.reads |= outside;
            self.recall.keep(key, Known { value, height, reads });
        }
        Ok(value)
    }

    fn at_hand(&mut self, value: Value, key: &Key) -> Value {
        if R::REMEMBERS {
            self.tallest = self.tallest.max(1);
            self.reads |= self.situation.inputs.wheels(key.variable);
        }
        value
    }

    fn node(&mut self, node: &'r Node, frame: &Frame<'r>, person: Option<u32>, visible: usize) -> Result<Value, Fault> {
        match node {
            Node::Literal(number) => Ok(Value::Number(*number)),
            Node::Truth(truth) => Ok(Value::Bool(*truth)),
            Node::Member(place) => Ok(Value::Member(*place)),
            Node::Local(place) => {
                if *place >= visible {
                    unreachable!()
                }
                self.node(&frame.locals[*place], frame, person, *place)
            }
            Node::Ask(ask) => self.ask(ask, frame, person),
            Node::Count(role) => {
                let (mut count, mut place) = (0, 0);
                while let Some((_, behind)) = self.next(frame.key.member, *role, place) {
                    (count, place) = (count + 1, behind);
                }
                Ok(Value::Number(Fraction { numerator: count, denominator: 1 }))
            }
            Node::Total(total, x) => self.total(*total, x, frame, visible),
            Node::Negative(operand) => {
                let number = number(self.node(operand, frame, person, visible)?);
                Ok(Value::Number(Fraction { numerator: -number.numerator, ..number }))
            }
            Node::Opposite(operand) => Ok(Value::Bool(!truth(self.node(operand, frame, person, visible)?))),
            Node::Arithmetic(operation, pair) => {
                let left = number(self.node(&pair.left, frame, person, visible)?);
                let right = number(self.node(&pair.right, frame, person, visible)?);
                computed(*operation, left, right, &frame.key)
            }
            Node::Logic(operation, pair) => {
                let left = truth(self.node(&pair.left, frame, person, visible)?);
                let right = truth(self.node(&pair.right, frame, person, visible)?);
                Ok(Value::Bool(match operation {
                    Logic::Or => left || right,
                    Logic::And => left && right,
                }))
            }
            Node::Comparison(comparison, pair) => {
                let left = number(self.node(&pair.left, frame, person, visible)?);
                let right = number(self.node(&pair.right, frame, person, visible)?);
                Ok(Value::Bool(compared(*comparison, left, right)))
            }
            Node::Same(pair) => {
                let left = member(self.node(&pair.left, frame, person, visible)?);
                let right = member(self.node(&pair.right, frame, person, visible)?);
                Ok(Value::Bool(left == right))
            }
            Node::Choose(condition, pair) => {
                let chosen = if truth(self.node(condition, frame, person, visible)?) { &pair.left } else { &pair.right };
                self.node(chosen, frame, person, visible)
            }
            Node::Parameter(x) => {
                let day = start_of(&x.moves, frame)?;
                self.parameter(x.place, day, frame)
            }
            Node::Chosen(x) => {
                let mut place = 0;
                for index in &x.indices {
                    place = place * index.size + member(self.node(&index.member, frame, person, visible)?);
                }
                let day = start_of(&x.moves, frame)?;
                self.parameter(x.places[place], day, frame)
            }
            Node::Scale(x) => {
                let day = start_of(&x.moves, frame)?;
                let base = number(self.node(&x.base, frame, person, visible)?);
                match self.rules.parameters.calc(x.place, day, base) {
                    Ok(sum) => Ok(Value::Number(sum)),
                    Err(CalcFault::Undefined) => Err(Fault::ParameterUndefined(frame.key)),
                    Err(CalcFault::BadScale) => Err(Fault::BadScale(frame.key)),
                    Err(CalcFault::Number(fault)) => Err(told(fault, &frame.key)),
                }
            }
        }
    }

    fn parameter(&self, place: usize, day: Day, frame: &Frame<'r>) -> Result<Value, Fault> {
        match self.rules.parameters.value_at(place, day) {
            Some(params::Value::Number(number)) => Ok(Value::Number(number)),
            Some(params::Value::Bool(truth)) => Ok(Value::Bool(truth)),
            None => Err(Fault::ParameterUndefined(frame.key)),
        }
    }

    fn ask(&mut self, ask: &Ask, frame: &Frame<'r>, person: Option<u32>) -> Result<Value, Fault> {
        let Ok(period) = moved(&ask.moves, frame.key.period) else {
            return Err(Fault::PeriodOutOfRange(frame.key));
        };
        let member = match ask.whom {
            Whom::Own => frame.key.member,
            Whom::Group(_) => self.situation.homes[frame.key.member as usize].group,
            Whom::Person => person.unwrap(),
            Whom::Holder(role) => match self.next(frame.key.member, Some(role), 0) {
                Some((person, _)) => person,
                None => return Ok(Value::Number(Fraction::ZERO)),
            },
        };
        let (variable, unit) = (ask.variable, self.rules.variables[ask.variable].unit);
        match ask.asking {
            Asking::Plain if fits(unit, period) => {
                let period = if unit == Unit::Eternity { Period::ETERNITY } else { period };
                self.below(Key { variable, member, period })
            }
            Asking::Plain => Err(Fault::PeriodMismatch(Key { variable, member, period })),
            Asking::Add => self.sum_over(variable, unit, member, period, &frame.key),
            Asking::Divide => {
                if unit != Unit::Year || !(fits(Unit::Month, period) || fits(Unit::Year, period)) {
                    return Err(Fault::PeriodMismatch(Key { variable, member, period }));
                }
                let Ok(year) = period.this_year() else { return Err(Fault::PeriodOutOfRange(frame.key)) };
                let whole = self.below(Key { variable, member, period: year })?;
                let parts = if period.unit() == Unit::Month { 12 } else { 1 };
                computed(Arithmetic::Divide, number(whole), Fraction { numerator: parts, denominator: 1 }, &frame.key)
            }
        }
    }

    /// The sum over the parts of a period.
    fn sum_over(&mut self, variable: usize, unit: Unit, member: u32, period: Period, key: &Key) -> Result<Value, Fault> {
        if period.unit() < unit || unit == Unit::Eternity || period.unit() == Unit::Eternity {
            return Err(Fault::PeriodMismatch(Key { variable, member, period }));
        }
        let mut sum = Fraction::ZERO;
        for place in 0..period.sub_count(unit).unwrap_or(0) {
            let value = self.below(Key { variable, member, period: period.sub(unit, place) })?;
            sum = sum.add(number(value)).map_err(|fault| told(fault, key))?;
        }
        Ok(Value::Number(sum))
    }

    /// The next person of a group who has a role, from a place on, and the place behind.
    fn next(&self, group: u32, role: Option<Role>, place: usize) -> Option<(u32, usize)> {
        let persons = &self.situation.persons[group as usize];
        let has = |person: u32| match role {
            None => true,
            Some(wanted) => {
                let role = self.situation.homes[person as usize].role;
                role.role == wanted.role && (wanted.subrole.is_none() || wanted.subrole == role.subrole)
            }
        };
        (place..persons.len()).find(|place| has(persons[*place])).map(|place| (persons[place], place + 1))
    }

    fn total(&mut self, total: Total, x: &'r Totalled, frame: &Frame<'r>, visible: usize) -> Result<Value, Fault> {
        let mut place = 0;
        let mut sum = match total {
            Total::Sum => Value::Number(Fraction::ZERO),
            Total::Any => Value::Bool(false),
            Total::All => Value::Bool(true),
            Total::Min | Total::Max => {
                let Some((person, behind)) = self.next(frame.key.member, x.role, 0) else {
                    return Err(Fault::NoMember(frame.key));
                };
                place = behind;
                Value::Number(number(self.node(&x.values, frame, Some(person), visible)?))
            }
        };
        while let Some((person, behind)) = self.next(frame.key.member, x.role, place) {
            place = behind;
            let value = self.node(&x.values, frame, Some(person), visible)?;
            sum = match total {
                Total::Sum => computed(Arithmetic::Add, number(sum), number(value), &frame.key)?,
                Total::Min => computed(Arithmetic::Min, number(sum), number(value), &frame.key)?,
                Total::Max => computed(Arithmetic::Max, number(sum), number(value), &frame.key)?,
                Total::Any => Value::Bool(truth(sum) || truth(value)),
                Total::All => Value::Bool(truth(sum) && truth(value)),
            };
        }
        Ok(sum)
    }
}

fn start_of(moves: &[Move], frame: &Frame<'_>) -> Result<Day, Fault> {
    match moved(moves, frame.key.period).ok().and_then(day_of) {
        Some(day) => Ok(day),
        None => Err(Fault::PeriodOutOfRange(frame.key)),
    }
}

/// Of the formulas that start by a day the one that starts last; none past the variable's end.
fn in_force(variable: &Variable, period: Period) -> Option<&Formula> {
    let day = day_of(period)?;
    if variable.end.is_some_and(|end| end < day) {
        return None;
    }
    let mut found: Option<&Formula> = None;
    for formula in &variable.formulas {
        if formula.start <= day && found.is_none_or(|upper| formula.start > upper.start) {
            found = Some(formula);
        }
    }
    found
}
