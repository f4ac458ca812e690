// What the peers that work formulas out by the same machine as ours share, by `include!` behind `common.rs`.

/// Formulas by the same machine as ours: what is pending stands on a stack of its own, and a formula stops at each key that it asks for. Where there is a
/// memory, a key of a variable with formulas is looked for in it, and then among those above it; what a formula gave is remembered with its height and the
/// wheels that it read.
mod machine {
    use super::*;
    #[derive(Clone, Copy)]
    struct At {
        person: Option<u32>,
        visible: usize,
    }
    #[derive(Clone, Copy)]
    struct Frame {
        member: u32,
        period: Period,
    }
    #[derive(Clone, Copy)]
    enum Operation {
        Arithmetic(Arithmetic),
        Logic(Logic),
        Comparison(Comparison),
        Same,
    }
    #[derive(Clone, Copy)]
    enum Pending<'a> {
        Right(Operation, &'a Node, At),
        Apply(Operation),
        Negative,
        Opposite,
        Choose(&'a Node, &'a Node, At),
        Turn(Total, &'a Totalled, usize, At),
        First(Total, &'a Totalled, usize, At),
        Part(usize, u32, Unit, u32),
        Share(i64),
        Scale(&'a ScaleSum),
        Index(&'a Chosen, usize, At),
        Return(&'a [Node], Kind),
    }
    #[derive(Clone, Copy)]
    enum Kept {
        Value(Value),
        Day(Day),
        Sum(Period, Fraction),
        Place(usize),
        Frame(Frame),
    }
    #[derive(Clone, Copy)]
    enum Control<'a> {
        Eval(&'a Node, At),
        Give,
    }
    enum Own {
        ZeroDivisor,
        TooWide,
        ParameterUndefined,
        BadScale,
        NoMember,
        PeriodMismatch(Key),
        PeriodOutOfRange,
    }
    enum Step {
        Done(Value),
        Failed(Own),
        Needs(Key),
    }
    struct Machine<'a> {
        locals: &'a [Node],
        frame: Frame,
        value: Value,
        stack: Vec<Pending<'a>>,
        kept: Vec<Kept>,
    }
    struct Context<'r, 's, I> {
        rules: &'r Rules,
        situation: &'s Situation<I>,
    }
    fn own(f: NumFault) -> Own {
        match f {
            NumFault::ZeroDivisor => Own::ZeroDivisor,
            _ => Own::TooWide,
        }
    }
    fn applied(op: Operation, l: Value, r: Value) -> Result<Value, Own> {
        match op {
            Operation::Arithmetic(a) => {
                let (l, r) = (number(l), number(r));
                let n = match a {
                    Arithmetic::Add => l.add(r),
                    Arithmetic::Subtract => l.sub(r),
                    Arithmetic::Multiply => l.mul(r),
                    Arithmetic::Divide => divided(l, r),
                    Arithmetic::Min => Ok(l.min(r)),
                    Arithmetic::Max => Ok(l.max(r)),
                };
                n.map(Value::Number).map_err(own)
            }
            Operation::Logic(a) => {
                let (l, r) = (truth(l), truth(r));
                Ok(Value::Bool(match a {
                    Logic::Or => l || r,
                    Logic::And => l && r,
                }))
            }
            Operation::Comparison(c) => Ok(Value::Bool(compared(c, number(l), number(r)))),
            Operation::Same => Ok(Value::Bool(member(l) == member(r))),
        }
    }
    fn step_of(total: Total) -> Operation {
        match total {
            Total::Sum => Operation::Arithmetic(Arithmetic::Add),
            Total::Min => Operation::Arithmetic(Arithmetic::Min),
            Total::Max => Operation::Arithmetic(Arithmetic::Max),
            Total::Any => Operation::Logic(Logic::Or),
            Total::All => Operation::Logic(Logic::And),
        }
    }
    fn next_person<I>(s: &Situation<I>, group: u32, role: Option<Role>, place: usize) -> Option<(u32, usize)> {
        let persons = &s.persons[group as usize];
        let has = |person: u32| match role {
            None => true,
            Some(wanted) => {
                let role = s.homes[person as usize].role;
                role.role == wanted.role && (wanted.subrole.is_none() || wanted.subrole == role.subrole)
            }
        };
        let mut at = place;
        while at < persons.len() {
            let p = persons[at];
            at += 1;
            if has(p) {
                return Some((p, at));
            }
        }
        None
    }
    impl<'a> Machine<'a> {
        fn ends(&mut self, o: Result<Value, Own>) -> Result<Control<'a>, Step> {
            match o {
                Ok(v) => {
                    self.value = v;
                    Ok(Control::Give)
                }
                Err(f) => Err(Step::Failed(f)),
            }
        }
        fn two(&mut self, op: Operation, p: &'a Pair, at: At) -> Result<Control<'a>, Step> {
            self.stack.push(Pending::Right(op, &p.right, at));
            Ok(Control::Eval(&p.left, at))
        }
        fn turn<I>(&mut self, w: &Context<'_, '_, I>, total: Total, x: &'a Totalled, next: usize, sum: Value, at: At) -> Result<Control<'a>, Step> {
            match next_person(w.situation, self.frame.member, x.role, next) {
                None => {
                    self.value = sum;
                    Ok(Control::Give)
                }
                Some((person, after)) => {
                    self.stack.push(Pending::Turn(total, x, after, at));
                    self.kept.push(Kept::Value(sum));
                    Ok(Control::Eval(&x.values, At { person: Some(person), visible: at.visible }))
                }
            }
        }
        fn parts(&mut self, variable: usize, member: u32, unit: Unit, period: Period, next: u32, sum: Fraction) -> Result<Control<'a>, Step> {
            match period.sub_count(unit) {
                Ok(count) if next < count => {
                    self.stack.push(Pending::Part(variable, member, unit, next + 1));
                    self.kept.push(Kept::Sum(period, sum));
                    Err(Step::Needs(Key { variable, member, period: period.sub(unit, next) }))
                }
                _ => {
                    self.value = Value::Number(sum);
                    Ok(Control::Give)
                }
            }
        }
        fn parameter<I>(&mut self, w: &Context<'_, '_, I>, place: usize, moves: &[Move]) -> Result<Control<'a>, Step> {
            let Some(day) = moved(moves, self.frame.period).ok().and_then(day_of) else { return Err(Step::Failed(Own::PeriodOutOfRange)) };
            let o = match w.rules.parameters.value_at(place, day) {
                Some(params::Value::Number(n)) => Ok(Value::Number(n)),
                Some(params::Value::Bool(b)) => Ok(Value::Bool(b)),
                None => Err(Own::ParameterUndefined),
            };
            self.ends(o)
        }
        fn choose<I>(&mut self, w: &Context<'_, '_, I>, x: &'a Chosen, next: usize, place: usize, at: At) -> Result<Control<'a>, Step> {
            match x.indices.get(next) {
                None => self.parameter(w, x.places[place], &x.moves),
                Some(index) => {
                    self.stack.push(Pending::Index(x, next, at));
                    self.kept.push(Kept::Place(place));
                    Ok(Control::Eval(&index.member, at))
                }
            }
        }
        fn ask<I>(&mut self, w: &Context<'_, '_, I>, ask: &Ask, at: At) -> Result<Control<'a>, Step> {
            let Ok(period) = moved(&ask.moves, self.frame.period) else { return Err(Step::Failed(Own::PeriodOutOfRange)) };
            let member = match ask.whom {
                Whom::Own => self.frame.member,
                Whom::Group(_) => w.situation.homes[self.frame.member as usize].group,
                Whom::Person => at.person.unwrap(),
                Whom::Holder(role) => match next_person(w.situation, self.frame.member, Some(role), 0) {
                    Some((p, _)) => p,
                    None => {
                        self.value = Value::Number(Fraction::ZERO);
                        return Ok(Control::Give);
                    }
                },
            };
            let (variable, unit) = (ask.variable, w.rules.variables[ask.variable].unit);
            match ask.asking {
                Asking::Plain => {
                    if fits(unit, period) {
                        Err(Step::Needs(Key { variable, member, period: if unit == Unit::Eternity { Period::ETERNITY } else { period } }))
                    } else {
                        Err(Step::Failed(Own::PeriodMismatch(Key { variable, member, period })))
                    }
                }
                Asking::Add => {
                    if period.unit() < unit || unit == Unit::Eternity || period.unit() == Unit::Eternity {
                        Err(Step::Failed(Own::PeriodMismatch(Key { variable, member, period })))
                    } else {
                        self.parts(variable, member, unit, period, 0, Fraction::ZERO)
                    }
                }
                Asking::Divide => {
                    if unit != Unit::Year || !(fits(Unit::Month, period) || fits(Unit::Year, period)) {
                        return Err(Step::Failed(Own::PeriodMismatch(Key { variable, member, period })));
                    }
                    let Ok(year) = period.this_year() else { return Err(Step::Failed(Own::PeriodOutOfRange)) };
                    self.stack.push(Pending::Share(if period.unit() == Unit::Month { 12 } else { 1 }));
                    Err(Step::Needs(Key { variable, member, period: year }))
                }
            }
        }
        fn descend<I>(&mut self, w: &Context<'_, '_, I>, node: &'a Node, at: At) -> Result<Control<'a>, Step> {
            match node {
                Node::Literal(n) => self.ends(Ok(Value::Number(*n))),
                Node::Truth(t) => self.ends(Ok(Value::Bool(*t))),
                Node::Member(t) => self.ends(Ok(Value::Member(*t))),
                Node::Local(i) => Ok(Control::Eval(&self.locals[*i], At { person: at.person, visible: *i })),
                Node::Ask(x) => self.ask(w, x, at),
                Node::Total(total, x) => match total {
                    Total::Sum => self.turn(w, *total, x, 0, Value::Number(Fraction::ZERO), at),
                    Total::Any | Total::All => self.turn(w, *total, x, 0, Value::Bool(matches!(total, Total::All)), at),
                    Total::Min | Total::Max => match next_person(w.situation, self.frame.member, x.role, 0) {
                        None => Err(Step::Failed(Own::NoMember)),
                        Some((p, after)) => {
                            self.stack.push(Pending::First(*total, x, after, at));
                            Ok(Control::Eval(&x.values, At { person: Some(p), visible: at.visible }))
                        }
                    },
                },
                Node::Count(role) => {
                    let (mut count, mut place) = (0, 0);
                    while let Some((_, behind)) = next_person(w.situation, self.frame.member, *role, place) {
                        (count, place) = (count + 1, behind);
                    }
                    self.ends(Ok(Value::Number(Fraction { numerator: count, denominator: 1 })))
                }
                Node::Same(p) => self.two(Operation::Same, p, at),
                Node::Chosen(x) => self.choose(w, x, 0, 0, at),
                Node::Negative(x) => {
                    self.stack.push(Pending::Negative);
                    Ok(Control::Eval(x, at))
                }
                Node::Opposite(x) => {
                    self.stack.push(Pending::Opposite);
                    Ok(Control::Eval(x, at))
                }
                Node::Arithmetic(k, p) => self.two(Operation::Arithmetic(*k), p, at),
                Node::Logic(k, p) => self.two(Operation::Logic(*k), p, at),
                Node::Comparison(k, p) => self.two(Operation::Comparison(*k), p, at),
                Node::Choose(c, p) => {
                    self.stack.push(Pending::Choose(&p.left, &p.right, at));
                    Ok(Control::Eval(c, at))
                }
                Node::Parameter(x) => self.parameter(w, x.place, &x.moves),
                Node::Scale(x) => {
                    let Some(day) = moved(&x.moves, self.frame.period).ok().and_then(day_of) else { return Err(Step::Failed(Own::PeriodOutOfRange)) };
                    self.stack.push(Pending::Scale(x));
                    self.kept.push(Kept::Day(day));
                    Ok(Control::Eval(&x.base, at))
                }
            }
        }
        fn ascend<I>(&mut self, w: &Context<'_, '_, I>) -> Result<Control<'a>, Step> {
            let value = self.value;
            match self.stack.pop() {
                None => unreachable!(),
                Some(Pending::Right(op, right, at)) => {
                    self.stack.push(Pending::Apply(op));
                    self.kept.push(Kept::Value(value));
                    Ok(Control::Eval(right, at))
                }
                Some(Pending::Apply(op)) => match self.kept.pop() {
                    Some(Kept::Value(left)) => {
                        let o = applied(op, left, value);
                        self.ends(o)
                    }
                    _ => unreachable!(),
                },
                Some(Pending::Negative) => {
                    let n = number(value);
                    self.ends(Ok(Value::Number(Fraction { numerator: -n.numerator, ..n })))
                }
                Some(Pending::Opposite) => self.ends(Ok(Value::Bool(!truth(value)))),
                Some(Pending::Choose(a, b, at)) => Ok(Control::Eval(if truth(value) { a } else { b }, at)),
                Some(Pending::Turn(total, x, next, at)) => match self.kept.pop() {
                    Some(Kept::Value(sum)) => match applied(step_of(total), sum, value) {
                        Ok(sum) => self.turn(w, total, x, next, sum, at),
                        Err(f) => Err(Step::Failed(f)),
                    },
                    _ => unreachable!(),
                },
                Some(Pending::First(total, x, next, at)) => self.turn(w, total, x, next, Value::Number(number(value)), at),
                Some(Pending::Part(variable, member, unit, next)) => match self.kept.pop() {
                    Some(Kept::Sum(period, sum)) => match sum.add(number(value)) {
                        Ok(sum) => self.parts(variable, member, unit, period, next, sum),
                        Err(f) => Err(Step::Failed(own(f))),
                    },
                    _ => unreachable!(),
                },
                Some(Pending::Share(parts)) => self.ends(divided(number(value), Fraction { numerator: parts, denominator: 1 }).map(Value::Number).map_err(own)),
                Some(Pending::Scale(x)) => match self.kept.pop() {
                    Some(Kept::Day(day)) => {
                        let o = match w.rules.parameters.calc(x.place, day, number(value)) {
                            Ok(s) => Ok(Value::Number(s)),
                            Err(CalcFault::Undefined) => Err(Own::ParameterUndefined),
                            Err(CalcFault::BadScale) => Err(Own::BadScale),
                            Err(CalcFault::Number(f)) => Err(own(f)),
                        };
                        self.ends(o)
                    }
                    _ => unreachable!(),
                },
                Some(Pending::Index(x, next, at)) => match self.kept.pop() {
                    Some(Kept::Place(place)) => self.choose(w, x, next + 1, place * x.indices[next].size + member(value), at),
                    _ => unreachable!(),
                },
                Some(Pending::Return(locals, kind)) => match self.kept.pop() {
                    Some(Kept::Frame(frame)) => match cast_own(kind, value) {
                        Ok(v) => {
                            self.locals = locals;
                            self.frame = frame;
                            Err(Step::Done(v))
                        }
                        Err(f) => Err(Step::Failed(f)),
                    },
                    _ => unreachable!(),
                },
            }
        }
        fn begin(&mut self, locals: &'a [Node], returned: &'a Node, kind: Kind, frame: Frame) -> Control<'a> {
            self.stack.push(Pending::Return(self.locals, kind));
            self.kept.push(Kept::Frame(self.frame));
            self.locals = locals;
            self.frame = frame;
            Control::Eval(returned, At { person: None, visible: locals.len() })
        }
        fn run<I>(&mut self, w: &Context<'_, '_, I>, control: Control<'a>) -> Step {
            let mut now = control;
            loop {
                let next = match now {
                    Control::Eval(n, at) => self.descend(w, n, at),
                    Control::Give => self.ascend(w),
                };
                match next {
                    Ok(c) => now = c,
                    Err(s) => return s,
                }
            }
        }
    }
    fn cast_own(kind: Kind, value: Value) -> Result<Value, Own> {
        match kind {
            Kind::Float => Ok(Value::Number(number(value))),
            Kind::Int => {
                let Fraction { numerator, denominator } = number(value);
                let whole = numerator / denominator as i64;
                if i32::try_from(whole).is_err() {
                    return Err(Own::TooWide);
                }
                Ok(Value::Number(Fraction { numerator: whole, denominator: 1 }))
            }
            Kind::Bool => Ok(Value::Bool(number(value).numerator != 0)),
            Kind::Enum => Ok(value),
        }
    }
    /// What is remembered of a key that is asked for below others.
    fn seek<R: Recall>(recall: &R, keys: &[Key], key: &Key) -> Result<Option<Known>, Fault> {
        if let Some(known) = recall.look(key) {
            if known.height as usize > MOST_KEYS - keys.len() {
                return Err(Fault::TooDeep(*keys.first().unwrap_or(key)));
            }
            return Ok(Some(known));
        }
        if keys.contains(key) { Err(Fault::Cycle(*key)) } else { Ok(None) }
    }
    fn at_hand<I: Inputs, R: Recall>(w: &Context<'_, '_, I>, keys: &[Key], key: &Key, value: Value) -> Result<Known, Fault> {
        if keys.len() < MOST_KEYS {
            Ok(Known { value, height: 1, reads: w.situation.inputs.wheels(key.variable) })
        } else if R::REMEMBERS {
            Err(Fault::TooDeep(keys[0]))
        } else {
            Err(too_long(keys, *key))
        }
    }
    fn below<'r, I: Inputs, R: Recall>(w: &Context<'r, '_, I>, recall: &mut R, m: &mut Machine<'r>, keys: &mut Vec<Key>, key: &Key) -> Result<Known, Fault> {
        let variable = match w.rules.variables.get(key.variable) {
            Some(v) if fits(v.unit, key.period) => v,
            _ => return Err(Fault::PeriodMismatch(*key)),
        };
        if R::REMEMBERS
            && !variable.formulas.is_empty()
            && let Some(known) = seek(recall, keys, key)?
        {
            return Ok(known);
        }
        if let Some(value) = w.situation.inputs.get(key) {
            return at_hand::<I, R>(w, keys, key, value);
        }
        match in_force(variable, key.period) {
            Some(f) => by_formula(w, recall, m, keys, variable, f, key),
            None => at_hand::<I, R>(w, keys, key, variable.default),
        }
    }
    fn by_formula<'r, I: Inputs, R: Recall>(w: &Context<'r, '_, I>, recall: &mut R, m: &mut Machine<'r>, keys: &mut Vec<Key>, v: &Variable, f: &'r Formula, key: &Key) -> Result<Known, Fault> {
        if keys.len() >= MOST_KEYS {
            return Err(if R::REMEMBERS { Fault::TooDeep(keys[0]) } else { too_long(keys, *key) });
        }
        keys.push(*key);
        let r = work_out(w, recall, m, keys, v, f, key);
        keys.pop();
        r
    }
    fn work_out<'r, I: Inputs, R: Recall>(w: &Context<'r, '_, I>, recall: &mut R, m: &mut Machine<'r>, keys: &mut Vec<Key>, v: &Variable, f: &'r Formula, key: &Key) -> Result<Known, Fault> {
        let mut control = m.begin(&f.locals, &f.result, v.kind, Frame { member: key.member, period: key.period });
        let (mut tallest, mut reads) = (0, w.situation.inputs.wheels(key.variable));
        loop {
            match m.run(w, control) {
                Step::Done(value) => {
                    let known = Known { value, height: tallest + 1, reads };
                    if R::REMEMBERS {
                        recall.keep(*key, known);
                    }
                    return Ok(known);
                }
                Step::Failed(f) => {
                    return Err(match f {
                        Own::PeriodMismatch(k) => Fault::PeriodMismatch(k),
                        Own::ZeroDivisor => Fault::ZeroDivisor(*key),
                        Own::BadScale => Fault::BadScale(*key),
                        Own::NoMember => Fault::NoMember(*key),
                        Own::ParameterUndefined => Fault::ParameterUndefined(*key),
                        Own::PeriodOutOfRange => Fault::PeriodOutOfRange(*key),
                        Own::TooWide => Fault::TooWide(*key),
                    });
                }
                Step::Needs(asked) => {
                    let known = below(w, recall, m, keys, &asked)?;
                    tallest = tallest.max(known.height);
                    reads |= known.reads;
                    m.value = known.value;
                    control = Control::Give;
                }
            }
        }
    }
    /// The stacks, which an evaluator hands on to the next one.
    pub struct Stacks<'r> {
        keys: Vec<Key>,
        machine: Machine<'r>,
    }
    impl<'r> Stacks<'r> {
        pub fn new() -> Stacks<'r> {
            let nobody = Frame { member: 0, period: Period::ETERNITY };
            let machine = Machine { locals: &[], frame: nobody, value: Value::Bool(false), stack: Vec::new(), kept: Vec::new() };
            Stacks { keys: Vec::new(), machine }
        }
    }
    pub struct Evaluator<'r, 's, I, R> {
        pub rules: &'r Rules,
        pub situation: &'s Situation<I>,
        pub recall: R,
        pub stacks: Stacks<'r>,
    }
    impl<'r, I: Inputs, R: Recall> Evaluator<'r, '_, I, R> {
        pub fn value(&mut self, key: Key) -> Result<Value, Fault> {
            let Stacks { keys, machine } = &mut self.stacks;
            machine.stack.clear();
            machine.kept.clear();
            keys.clear();
            let w = Context { rules: self.rules, situation: self.situation };
            below(&w, &mut self.recall, machine, keys, &key).map(|known| known.value)
        }
    }
}
