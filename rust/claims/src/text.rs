//! Calls, states and words as antt text.

use moments::Call;
use twin::{Answer, Lock, Op, Slot, State, Way};

/// What stands at the head of every file of claims; `calls` there opens the rules to them.
pub const HEAD: &str = include_str!("head.txt");

/// A list, each element already text.
pub fn list<I: IntoIterator<Item = String>>(elements: I) -> String {
    let mut text = String::from("(");
    for element in elements {
        text.push_str(&element);
        text.push_str(" ∷ ");
    }
    text + "[])"
}

/// A list of numbers.
pub fn numbers<T: ToString + Copy>(numbers: &[T]) -> String {
    list(numbers.iter().map(|number| number.to_string()))
}

/// An operation.
fn op(op: Op) -> String {
    match op {
        Op::Search(key) => format!("(Search {key})"),
        Op::Insert(key, information, by) => format!("(Insert {key} {information} {})", way(by)),
        Op::Delete(key, by) => format!("(Delete {key} {})", way(by)),
        Op::Next(key) => format!("(Next {key})"),
        Op::Regrade(key, information, by) => format!("(Regrade {key} {information} {})", way(by)),
    }
}

/// A way.
fn way(way: Way) -> &'static str {
    match way {
        Way::First => "First",
        Way::Second => "Second",
        Way::Third => "Third",
    }
}

/// A kind of lock.
fn lock(lock: Lock) -> &'static str {
    match lock {
        Lock::None => "None",
        Lock::Rho => "Rho",
        Lock::Xi => "Xi",
        Lock::UpdaterRho => "UpdaterRho",
        Lock::Alpha => "Alpha",
    }
}

/// A list of kinds of lock.
fn locks(locks: &[Lock]) -> String {
    list(locks.iter().map(|&kind| lock(kind).to_string()))
}

/// A call.
pub fn call(call: Call) -> String {
    match call {
        Call::Begin(slot, asked) => format!("begin {slot} {}", op(asked)),
        Call::Step(slot) => format!("step {slot}"),
        Call::Report(page) => format!("report {page}"),
    }
}

/// A slot, cell by cell.
fn slot(slot: &Slot) -> String {
    if *slot == Slot::CLOSED {
        return "shut".to_string();
    }
    let task = slot.op.map_or("Closed".to_string(), |asked| {
        format!("(Open {})", op(asked))
    });
    format!(
        "slot {task} {} {} {} {} {} {} {} {}",
        slot.want,
        lock(slot.lock),
        numbers(&slot.path),
        locks(&slot.path_locks),
        slot.depth,
        numbers(&slot.siblings),
        locks(&slot.sibling_locks),
        slot.beside
    )
}

/// A state, cell by cell.
pub fn state(state: &State) -> String {
    format!(
        "(given {} {} {} {} {})",
        state.k,
        state.n,
        list(state.slots.iter().map(slot)),
        numbers(&state.order),
        state.waiting
    )
}

/// What is told at the end: the answers, call by call, the state and the words.
pub fn told(answers: &[Answer], at_end: &State, words: &[u32]) -> String {
    format!(
        "told {} {} {}",
        list(answers.iter().map(|answer| numbers(&answer.heard()))),
        state(at_end),
        numbers(words)
    )
}

/// A claim: its name, what is evaluated and what it gives.
pub fn claim(name: &str, left: &str, right: &str) -> String {
    format!("{name} : {left} ≡ {right}\nunfolding calls\n{name} = refl\n\n")
}
