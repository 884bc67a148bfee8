//! The rows of proved tables, read as they stand there, and answered by this program.

use std::iter::Peekable;
use std::vec::IntoIter;

use twin::{begin, make, open, page_words, report, step, Answer, Lock, Op, Slot, State, Way};

/// The proved tables; a name may be defined in another one than it is used in.
const TABLES: [&str; 11] = [
    include_str!("../../../crates/promises/specs/Bench.antt"),
    include_str!("../../../crates/promises/specs/MoreRows.antt"),
    include_str!("../../../crates/promises/specs/LongRun.antt"),
    include_str!("../../../crates/promises/specs/NextRows.antt"),
    include_str!("../../../crates/promises/specs/RegradeRows.antt"),
    include_str!("../../../crates/promises/specs/WideRows.antt"),
    include_str!("../../../crates/promises/specs/DamageRows.antt"),
    include_str!("../../../crates/promises/specs/SecondRows.antt"),
    include_str!("../../../crates/promises/specs/ThirdRows.antt"),
    include_str!("../../../crates/promises/specs/OpenRows.antt"),
    include_str!("../../../crates/promises/specs/BlankRows.antt"),
];

/// What an expression of a table stands for.
#[derive(Clone, Debug, PartialEq)]
enum Value {
    Number(u32),
    Way(Way),
    Op(Op),
    Call(Call),
    Answer(Answer),
    List(Vec<Value>),
    State(Box<State>),
    Told(Box<Told>),
    Left(Box<Left>),
    Row(Vec<Value>, Vec<Value>),
}
use Value::{List, Number};

#[derive(Clone, Copy, Debug, PartialEq)]
enum Call {
    Begin(usize, Op),
    Step(usize),
    Report(u32),
}

/// A state and the pool's words, and what was answered on the way there.
#[derive(Clone, Debug, PartialEq)]
struct Told {
    heard: Vec<Value>,
    state: State,
    words: Vec<u32>,
}

/// What an opening answers and leaves.
#[derive(Clone, Debug, PartialEq)]
struct Left {
    answer: Answer,
    state: State,
    words: Vec<u32>,
}

impl Told {
    /// A fresh pool, k = 1.
    fn fresh(n: u32) -> Told {
        let mut words = vec![9; n as usize * page_words(1)];
        let (_, state) = make(1, n, &mut words);
        Told::of(state, words)
    }

    /// Before any call.
    fn of(state: State, words: Vec<u32>) -> Told {
        let heard = Vec::new();
        Told {
            heard,
            state,
            words,
        }
    }

    fn answer(&mut self, call: &Value) -> Answer {
        let (answer, state) = match *call {
            Value::Call(Call::Begin(slot, op)) => begin(&self.state, slot, op),
            Value::Call(Call::Step(slot)) => step(&self.state, &mut self.words, slot),
            Value::Call(Call::Report(page)) => (report(&self.state, page), self.state),
            _ => panic!("{call:?} is no call"),
        };
        self.state = state;
        answer
    }

    fn answers(&mut self, calls: &[Value]) -> Vec<Value> {
        let answers = calls.iter().map(|call| Value::Answer(self.answer(call)));
        self.heard = answers.collect();
        self.heard.clone()
    }
}

/// The words of an expression, from the left.
type Tokens = Peekable<IntoIter<String>>;

/// What is defined in a table by a name without arguments.
fn defined(name: &str) -> Option<Value> {
    let start = format!("\n{name} =");
    let text = TABLES.iter().find_map(|table| table.split(&start).nth(1))?;
    let lines = text.split("\n\n").next()?.lines();
    let lines: Vec<&str> = lines.filter_map(|line| line.split("--").next()).collect();
    Some(read(&lines.join("\n")))
}

fn read(text: &str) -> Value {
    let text = text.replace('(', " ( ").replace(')', " ) ");
    let text = text.replace('.', " .");
    let tokens: Vec<String> = text.split_whitespace().map(str::to_string).collect();
    let mut tokens = tokens.into_iter().peekable();
    let value = expression(&mut tokens);
    assert_eq!(tokens.next(), None);
    value
}

/// Applications, joined by `∷` and `++`.
fn expression(tokens: &mut Tokens) -> Value {
    let first = application(tokens);
    match tokens.peek().map(String::as_str) {
        Some("∷") => {
            tokens.next();
            List([vec![first], list(&expression(tokens))].concat())
        }
        Some("++") => {
            tokens.next();
            List([list(&first), list(&expression(tokens))].concat())
        }
        _ => first,
    }
}

/// A name with its arguments, or a value that stands alone.
fn application(tokens: &mut Tokens) -> Value {
    let head = tokens.next().expect("an expression");
    let alone = standing_alone(&head, tokens);
    if alone.is_none() && !tokens.peek().is_some_and(|token| is_field(token)) {
        return applied(&head, &arguments(tokens));
    }
    fields(alone.unwrap_or_else(|| applied(&head, &[])), tokens)
}

/// What is taken out of a value by the fields behind it.
fn fields(mut value: Value, tokens: &mut Tokens) -> Value {
    while let Some(field) = tokens.next_if(|token| is_field(token)) {
        value = taken(&value, &field);
    }
    value
}

fn is_field(token: &str) -> bool {
    token.starts_with('.')
}

/// A part of a value, by its name behind the point.
fn taken(value: &Value, field: &str) -> Value {
    match (value, field) {
        (Value::Left(left), ".answer") => Value::Answer(left.answer),
        (Value::Left(left), ".state") => Value::State(Box::new(left.state)),
        (Value::Left(left), ".words") => words(&left.words),
        (Value::Told(told), ".state") => Value::State(Box::new(told.state)),
        (Value::Told(told), ".words") => words(&told.words),
        (Value::State(state), ".k") => Number(state.k),
        (Value::State(state), ".n") => Number(state.n),
        _ => panic!("{value:?} has no {field}"),
    }
}

fn arguments(tokens: &mut Tokens) -> Vec<Value> {
    let is_end = |token: &String| [")", "∷", "++"].contains(&token.as_str());
    let mut arguments = Vec::new();
    while let Some(token) = tokens.next_if(|token| !is_end(token)) {
        let value = standing_alone(&token, tokens).unwrap_or_else(|| applied(&token, &[]));
        arguments.push(fields(value, tokens));
    }
    arguments
}

/// A number, the empty list, or what stands in brackets; not a name.
fn standing_alone(token: &str, tokens: &mut Tokens) -> Option<Value> {
    match token {
        "(" => {
            let value = expression(tokens);
            assert_eq!(tokens.next().as_deref(), Some(")"));
            Some(value)
        }
        "[]" => Some(List(Vec::new())),
        _ => token.parse().ok().map(Number),
    }
}

/// What a name stands for: a name of the rules, a function of the tables, or a name that one of them defines without arguments.
fn applied(name: &str, arguments: &[Value]) -> Value {
    let known = answer(name, arguments)
        .or_else(|| calls(name, arguments))
        .or_else(|| place(name, arguments))
        .or_else(|| blank(name, arguments));
    let defined = || defined(name).filter(|_| arguments.is_empty());
    let value = known.or_else(defined);
    value.unwrap_or_else(|| panic!("{name} {arguments:?} has no meaning here"))
}

fn answer(name: &str, arguments: &[Value]) -> Option<Value> {
    let answer = match (name, arguments) {
        ("heard", [heard]) => return Some(heard.clone()),
        ("next", [Number(key)]) => Answer::Next(*key, 7),
        ("Found", [Number(information)]) => Answer::Found(*information),
        ("AlreadyThere", [Number(information)]) => Answer::AlreadyThere(*information),
        ("Deleted", [Number(information)]) => Answer::Deleted(*information),
        ("Regraded", [Number(information)]) => Answer::Regraded(*information),
        ("NextLot", [Number(key), Number(information)]) => Answer::Next(*key, *information),
        ("Reported", [Number(lock), Number(count), Number(first)]) => {
            Answer::Reported(*lock, *count, *first)
        }
        ("Begun", []) => Answer::Begun,
        ("Moved", []) => Answer::Moved,
        ("Waiting", []) => Answer::Waiting,
        ("NotFound", []) => Answer::NotFound,
        ("Inserted", []) => Answer::Inserted,
        ("NoSuchKey", []) => Answer::NoSuchKey,
        ("NoRoom", []) => Answer::NoRoom,
        ("NoLot", []) => Answer::None,
        ("Damaged", []) => Answer::Damaged,
        ("BadState", []) => Answer::BadState,
        ("BadPool", []) => Answer::BadPool,
        ("BadSlot", []) => Answer::BadSlot,
        ("SlotBusy", []) => Answer::SlotBusy,
        ("SlotIdle", []) => Answer::SlotIdle,
        ("BadKey", []) => Answer::BadKey,
        ("Opened", []) => Answer::Opened,
        ("BadPageInPool", [Number(page)]) => Answer::BadPageInPool(*page),
        ("BadTree", []) => Answer::BadTree,
        _ => return None,
    };
    Some(Value::Answer(answer))
}

/// Locks, operations, calls and lists of calls.
fn calls(name: &str, arguments: &[Value]) -> Option<Value> {
    Some(match (name, arguments) {
        ("None", []) => Number(0),
        ("Rho", []) => Number(1),
        ("Xi", []) => Number(2),
        ("UpdaterRho", []) => Number(3),
        ("Alpha", []) => Number(4),
        ("Search", [Number(key)]) => Value::Op(Op::Search(*key)),
        ("First", []) => Value::Way(Way::First),
        ("Second", []) => Value::Way(Way::Second),
        ("Third", []) => Value::Way(Way::Third),
        ("Insert", [Number(key), Number(information), way @ ..]) => {
            Value::Op(Op::Insert(*key, *information, named(way)))
        }
        ("Delete", [Number(key), way @ ..]) => Value::Op(Op::Delete(*key, named(way))),
        ("Next", [Number(key)]) => Value::Op(Op::Next(*key)),
        ("Regrade", [Number(key), Number(information), way @ ..]) => {
            Value::Op(Op::Regrade(*key, *information, named(way)))
        }
        ("begin", [Number(slot), Value::Op(op)]) => Value::Call(Call::Begin(*slot as usize, *op)),
        ("step", [Number(slot)]) => Value::Call(Call::Step(*slot as usize)),
        ("report", [Number(page)]) => Value::Call(Call::Report(*page)),
        ("runs", [Number(slot), Value::Op(op), Number(steps)]) => {
            let begun = Value::Call(Call::Begin(*slot as usize, *op));
            let step = Value::Call(Call::Step(*slot as usize));
            List([vec![begun], vec![step; *steps as usize]].concat())
        }
        ("puts", [Number(key)]) => read(&format!("runs 0 (Insert {key} 7) 1")),
        ("watched", [Number(steps), List(pages)]) => {
            let reports = pages
                .iter()
                .map(|page| applied("report", std::slice::from_ref(page)));
            let once: Vec<Value> = [read("step 0")].into_iter().chain(reports).collect();
            List(vec![once; *steps as usize].concat())
        }
        _ => return None,
    })
}

/// The way that is named behind an update; where none is, the first.
fn named(way: &[Value]) -> Way {
    match way {
        [] => Way::First,
        [Value::Way(way)] => *way,
        _ => panic!("{way:?} is no way"),
    }
}

/// Where a row begins, and the row.
fn place(name: &str, arguments: &[Value]) -> Option<Value> {
    Some(match (name, arguments) {
        ("idle_state", [Number(k), Number(n)]) => Value::State(Box::new(State::empty(*k, *n))),
        ("slot_open", [Number(n), Value::Op(op), Number(want), path, beside]) => {
            let slot = open_slot(*op, *want, &numbers(path), &numbers(beside));
            state_with(*n, &[slot])
        }
        ("slot_wanting", [Number(n), Value::Op(op), Number(want), Number(lock), path, beside]) => {
            let slot = open_slot(*op, *want, &numbers(path), &numbers(beside));
            state_with(*n, &[slot.wanting(Lock::of(*lock))])
        }
        ("ran", [List(_), Value::State(state), words]) => {
            Value::Told(Box::new(Told::of(**state, numbers(words))))
        }
        ("run", [List(calls), Value::State(state), words]) => {
            let mut told = Told::of(**state, numbers(words));
            told.answers(calls);
            Value::Told(Box::new(told))
        }
        ("heard_in", [Value::Told(told)]) => List(told.heard.clone()),
        ("opened", [Number(k), Number(n), words]) => {
            let words = numbers(words);
            let (answer, state) = open(*k, *n, &words);
            Value::Left(Box::new(Left {
                answer,
                state,
                words,
            }))
        }
        ("handed", [_, _, _]) => taken(&applied("opened", arguments), ".answer"),
        ("from", [n, words]) => {
            let opened = applied("opened", &[Number(1), n.clone(), words.clone()]);
            let (state, words) = (taken(&opened, ".state"), taken(&opened, ".words"));
            applied("ran", &[List(Vec::new()), state, words])
        }
        ("pool", [Number(n), List(calls)]) => {
            let mut told = Told::fresh(*n);
            told.answers(calls);
            Value::Told(Box::new(told))
        }
        ("next_slot", [Number(n), want, path, second]) => {
            let operation = Value::Op(Op::Next(25));
            open_in(*n, operation, [want, path, second], read("tens_words"))
        }
        ("inserting", [want, path, beside]) => {
            let operation = Value::Op(Op::Insert(65, 7, Way::First));
            open_in(11, operation, [want, path, beside], read("to_sixty"))
        }
        ("deleting", [want, path, beside]) => {
            let operation = Value::Op(Op::Delete(10, Way::First));
            open_in(7, operation, [want, path, beside], read("tens_words"))
        }
        ("looked_at", [operation, path, beside]) => {
            let held = [&Number(19), path, beside];
            let from = open_in(20, operation.clone(), held, List(Vec::new()));
            applied("answers", &[from, read("report 18 ∷ []")])
        }
        ("standing", [operation, want, lock, path, beside]) => {
            let slot = [&Number(7), operation, want, lock, path, beside].map(Value::clone);
            let state = applied("slot_wanting", &slot);
            applied("ran", &[List(Vec::new()), state, read("tens_words")])
        }
        ("judged", [_, _, _, _, _]) => {
            let from = applied("standing", arguments);
            applied("answers", &[from, read("report 5 ∷ []")])
        }
        ("together", [Value::Op(one), Value::Op(other)]) => {
            let slots = [(one, 1), (other, 2)].map(|(op, want)| open_slot(*op, want, &[5], &[]));
            look_at_five(&slots)
        }
        ("carried", [Value::Op(op), path, locks, beside, sidelocks]) => {
            let mut slot = open_slot(*op, 6, &numbers(path), &numbers(beside));
            lay(locks, &mut slot.path_locks);
            lay(sidelocks, &mut slot.sibling_locks);
            look_at_five(&[slot])
        }
        ("carried_one", [Value::Op(op), Number(lock)]) => {
            let slot = open_slot(*op, 6, &[5], &[]);
            look_at_five(&[slot.holding(Lock::of(*lock))])
        }
        ("meets", [Value::Op(held), Value::Op(wanted)]) => {
            let (held, wanted) = (Value::Op(*held), Value::Op(*wanted));
            let held = list(&applied("runs", &[Number(0), held, Number(1)]));
            let wanted = list(&applied("runs", &[Number(1), wanted, Number(1)]));
            applied("answers", &[read("case_e"), List([held, wanted].concat())])
        }
        ("follows", [Value::Op(older), Value::Op(younger)]) => {
            let calls = [
                Call::Begin(0, *older),
                Call::Begin(1, *younger),
                Call::Step(1),
            ];
            let calls = List(calls.map(Value::Call).to_vec());
            applied("answers", &[read("case_e"), calls])
        }
        ("stands_with", [Value::Op(op), Number(want), Number(lock), held @ ..]) => {
            let slot = holding(*op, *want, Lock::of(*lock), held);
            let from = [List(Vec::new()), state_with(7, &[slot]), read("tens_words")];
            applied("ran", &from)
        }
        ("looked", [Value::Op(op), Number(want), Number(lock), held @ ..]) => {
            look_at_five(&[holding(*op, *want, Lock::of(*lock), held)])
        }
        ("sharing", [Value::Op(one), Number(its), Value::Op(other), Number(theirs)]) => {
            let slots = [(one, 1, its), (other, 2, theirs)];
            let slots = slots.map(|(op, want, lock)| {
                let slot = open_slot(*op, want, &[5], &[]);
                slot.holding(Lock::of(*lock))
            });
            look_at_five(&slots)
        }
        ("converts", [want, locks, sidelocks]) => {
            let (op, path, beside) = (
                read("Delete 10 Third"),
                read("0 ∷ 5 ∷ 1 ∷ []"),
                read("2 ∷ 6 ∷ []"),
            );
            let slot = [&op, want, &path, locks, &beside, sidelocks].map(Value::clone);
            applied("turns", &slot)
        }
        ("turns", [op, want, held @ ..]) => {
            let wants = [op.clone(), want.clone(), Number(2)];
            applied("stands_with", &[&wants, held].concat())
        }
        ("once", [from]) => applied("answers", &[from.clone(), read("step 0 ∷ []")]),
        ("damaged", [from, Number(at), Number(word)]) => with_words(from, *at, &[*word]),
        ("with_page", [from, Number(page), words]) => with_words(from, page * 7, &numbers(words)),
        ("answers", [from, List(calls)]) => List(told(from).answers(calls)),
        ("going_on", [from, List(calls)]) => {
            let mut told = told(from);
            told.answers(calls);
            Value::Told(Box::new(told))
        }
        ("wide", [n, words]) => {
            let state = applied("idle_state", &[Number(2), n.clone()]);
            applied("ran", &[List(Vec::new()), state, words.clone()])
        }
        ("paged", [Number(page), new, old]) => {
            let (at, mut all) = (*page as usize * page_words(2), numbers(old));
            all[at..at + page_words(2)].copy_from_slice(&numbers(new));
            words(&all)
        }
        ("did", [from, List(calls)]) => {
            let mut told = told(from);
            let heard = told.answers(calls);
            List([heard, vec![words(&told.words)]].concat())
        }
        ("pages", [from]) => List(told(from).words[..3 * 7].chunks(7).map(words).collect()),
        ("row", [List(given), List(said)]) => Value::Row(given.clone(), said.clone()),
        _ => return None,
    })
}

/// What the table of the blank tag has for itself.
fn blank(name: &str, arguments: &[Value]) -> Option<Value> {
    Some(match (name, arguments) {
        ("short", [from]) => {
            let mut told = told(from);
            told.words.truncate(20);
            Value::Told(Box::new(told))
        }
        ("meets", [op]) => {
            let begun = applied("runs", &[Number(0), op.clone(), Number(1)]);
            let held = applied("going_on", &[read("case_e"), begun]);
            let from = applied("damaged", &[held, Number(9), Number(0)]);
            applied("once", &[from])
        }
        ("asking", [op]) => {
            let nothing = List(Vec::new());
            let held = [&Number(0), &nothing, &nothing];
            open_in(1, op.clone(), held, read("bare"))
        }
        _ => return None,
    })
}

/// A pool of n pages in which slot 0 alone is open, with its want, its path and what stands beside it.
fn open_in(n: u32, operation: Value, [want, path, beside]: [&Value; 3], words: Value) -> Value {
    let slot = [
        Number(n),
        operation,
        want.clone(),
        path.clone(),
        beside.clone(),
    ];
    let state = applied("slot_open", &slot);
    applied("ran", &[List(Vec::new()), state, words])
}

/// An open slot that wants with the kind under which it holds. It may be said to hold more than its cells can name.
fn open_slot(op: Op, want: u32, path: &[u32], beside: &[u32]) -> Slot {
    let mut slot = Slot::open(op, want, &path[..path.len().min(10)], beside);
    slot.depth = path.len();
    slot
}

/// An open slot that wants with this kind, and holds a path and what stands beside it, each page under a kind of its own.
fn holding(op: Op, want: u32, lock: Lock, held: &[Value]) -> Slot {
    let [path, locks, beside, sidelocks] = held else {
        panic!("{held:?} is not held")
    };
    let mut slot = open_slot(op, want, &numbers(path), &numbers(beside)).wanting(lock);
    lay(locks, &mut slot.path_locks);
    lay(sidelocks, &mut slot.sibling_locks);
    slot
}

/// Kinds of lock, by number, in the first cells.
fn lay(locks: &Value, cells: &mut [Lock]) {
    for (cell, lock) in cells.iter_mut().zip(numbers(locks)) {
        *cell = Lock::of(lock);
    }
}

/// What a report for page 5 says of three levels, in which these slots are open.
fn look_at_five(slots: &[Slot]) -> Value {
    let from = [List(Vec::new()), state_with(7, slots), read("tens_words")];
    applied("answers", &[applied("ran", &from), read("report 5 ∷ []")])
}

/// A state in which these slots are open, from slot 0 on, the lower one's want older.
fn state_with(n: u32, slots: &[Slot]) -> Value {
    let mut state = State::empty(1, n);
    for (number, slot) in slots.iter().enumerate() {
        state.slots[number] = *slot;
        state.order[number] = number;
    }
    state.waiting = slots.len();
    Value::State(Box::new(state))
}

/// The same with other words from a place on.
fn with_words(from: &Value, at: u32, words: &[u32]) -> Value {
    let mut told = told(from);
    told.words[at as usize..at as usize + words.len()].copy_from_slice(words);
    Value::Told(Box::new(told))
}

fn words(words: &[u32]) -> Value {
    List(words.iter().copied().map(Number).collect())
}

fn told(value: &Value) -> Told {
    match value {
        Value::Told(told) => (**told).clone(),
        _ => panic!("{value:?} is no state and words"),
    }
}

fn list(value: &Value) -> Vec<Value> {
    match value {
        List(values) => values.clone(),
        _ => panic!("{value:?} is no list"),
    }
}

fn numbers(value: &Value) -> Vec<u32> {
    let number = |value| match value {
        Number(number) => number,
        _ => panic!("{value:?} is no number"),
    };
    list(value).into_iter().map(number).collect()
}

#[test]
fn every_row_is_heard() {
    for (name, length) in [
        ("next_rows", 40),
        ("regrade_rows", 15),
        ("wide_rows", 29),
        ("damage_rows", 58),
        ("second_rows", 87),
        ("third_rows", 68),
        ("open_rows", 33),
        ("blank_rows", 28),
    ] {
        let rows = list(&defined(name).expect("it is there"));
        assert_eq!(rows.len(), length, "{name}");
        for (at, row) in rows.into_iter().enumerate() {
            match row {
                Value::Row(given, said) => assert_eq!(given, said, "{name}, row {at}"),
                _ => panic!("{row:?} is no row"),
            }
        }
    }
}

/// How an opening is written in a table, and a run from there.
#[test]
fn an_opening_is_read() {
    let e = "(2 ∷ 1 ∷ 1 ∷ 20 ∷ 2 ∷ 0 ∷ 0 ∷ 1 ∷ 1 ∷ 10 ∷ 7 ∷ 0 ∷ 0 ∷ 0 ∷ 1 ∷ 2 ∷ 20 ∷ 7 ∷ 30 ∷ 7 ∷ 0 ∷ [])";
    let opened = format!("opened 1 3 {e}");
    let fresh = "opened 1 1 (1 ∷ 0 ∷ 0 ∷ 0 ∷ 0 ∷ 0 ∷ 0 ∷ [])";
    let run = format!("run (runs 0 (Search 20) 2) ({opened}).state ({opened}).words");
    for (given, said) in [
        (format!("heard ({opened}).answer"), "heard Opened"),
        (
            format!("({opened}).state.k ∷ ({opened}).state.n ∷ []"),
            "1 ∷ 3 ∷ []",
        ),
        (format!("heard_in ({run})"), "Begun ∷ Moved ∷ Found 7 ∷ []"),
        (format!("answers ({run}) (step 0 ∷ [])"), "SlotIdle ∷ []"),
        (format!("heard ({fresh}).answer"), "heard Opened"),
        (format!("(opened 1 4 {e}).answer"), "BadPool"),
        ("(opened 1 1 []).answer".to_string(), "BadPool"),
        (
            format!("({}).answer", fresh.replace("1 ∷ 0", "0 ∷ 0")),
            "heard (BadPageInPool 0)",
        ),
        (
            format!("({}).answer", opened.replace("10", "20")),
            "BadTree",
        ),
        (format!("({}).state.n", opened.replace("10", "20")), "0"),
    ] {
        assert_eq!(read(&given), read(said), "{given}");
    }
}
