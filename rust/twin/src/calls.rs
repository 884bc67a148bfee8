//! The five calls, with their refusals in the order of documents 01 and 02.

use crate::answer::Answer;
use crate::grant::{grant, Outcome};
use crate::locks::{lock_report, must_wait};
use crate::op::{Op, Way};
use crate::opening::checked;
use crate::page::page_words;
use crate::reach::Shape;
use crate::state::{is_sound, Slot, State, SLOTS};

/// Makes a fresh pool: every word 0 but page 0's level, 1.
pub fn make(k: u32, n: u32, words: &mut [u32]) -> (Answer, State) {
    if !is_pool(k, n, words) {
        return (Answer::BadPool, State::empty(0, 0));
    }
    words.fill(0);
    words[0] = 1;
    (Answer::Made, State::empty(k, n))
}

/// Opens words that somebody hands in as a pool; they are only read.
pub fn open(k: u32, n: u32, words: &[u32]) -> (Answer, State) {
    if !is_pool(k, n, words) {
        return (Answer::BadPool, State::empty(0, 0));
    }
    match checked(k, n, words) {
        Answer::Opened => (Answer::Opened, State::empty(k, n)),
        refusal => (refusal, State::empty(0, 0)),
    }
}

/// Whether k and N are in range, and there are as many words as they ask for.
fn is_pool(k: u32, n: u32, words: &[u32]) -> bool {
    let is_in_range = (1..=16).contains(&k) && (1..=1024).contains(&n);
    is_in_range && words.len() == n as usize * page_words(k)
}

/// Begins an operation in a closed slot: it wants page 0.
pub fn begin(given: &State, slot: usize, op: Op) -> (Answer, State) {
    if !is_sound(given) {
        return (Answer::BadState, *given);
    }
    if slot >= SLOTS {
        return (Answer::BadSlot, *given);
    }
    if given.slots[slot].op.is_some() {
        return (Answer::SlotBusy, *given);
    }
    if op.is_blank_tag() {
        return (Answer::BadKey, *given);
    }
    let mut state = *given;
    state.slots[slot] = begun(op);
    state.order[state.waiting] = slot;
    state.waiting += 1;
    (Answer::Begun, state)
}

/// A slot whose operation has just begun, or begun again.
fn begun(op: Op) -> Slot {
    Slot::open(op, 0, &[], &[])
}

/// Steps a slot: grants its want and does what follows, or leaves all as given.
pub fn step(given: &State, words: &mut [u32], slot: usize) -> (Answer, State) {
    if !is_sound(given) {
        return (Answer::BadState, *given);
    }
    if words.len() != given.n as usize * page_words(given.k) {
        return (Answer::BadPool, *given);
    }
    if slot >= SLOTS {
        return (Answer::BadSlot, *given);
    }
    let Some(op) = given.slots[slot].op else {
        return (Answer::SlotIdle, *given);
    };
    if must_wait(given, slot) {
        return (Answer::Waiting, *given);
    }
    let shape = Shape {
        k: given.k,
        n: given.n,
    };
    match grant(shape, words, &given.slots[slot], op) {
        Outcome::Damaged => (Answer::Damaged, *given),
        Outcome::GoesOn(went) => (Answer::Moved, with_slot(given, slot, went)),
        Outcome::BeginsAgain => {
            let begun = begun(op.by(Way::First));
            (Answer::Moved, with_slot(given, slot, begun))
        }
        Outcome::Ends(answer) => (answer, with_slot(given, slot, Slot::CLOSED)),
    }
}

/// Writes a slot; its old want leaves the waiting order, a new want goes to its end.
fn with_slot(given: &State, slot: usize, written: Slot) -> State {
    let mut state = *given;
    let place = state
        .order()
        .iter()
        .position(|&named| named == slot)
        .expect("an open slot waits");
    let last = state.waiting - 1;
    state.order.copy_within(place + 1..state.waiting, place);
    if written.op.is_some() {
        state.order[last] = slot;
    } else {
        state.order[last] = 0;
        state.waiting = last;
    }
    state.slots[slot] = written;
    state
}

/// Reports the locks on a page.
pub fn report(state: &State, page: u32) -> Answer {
    if !is_sound(state) {
        return Answer::BadState;
    }
    if page >= state.n {
        return Answer::BadPage;
    }
    lock_report(state, page)
}
