//! The state as lent 32-bit words, in columns, and the five calls over it.
//!
//! | words | what |
//! |---|---|
//! | 0, 1, 2 | k, N, how many wait |
//! | 3 to 18 | the waiting order, oldest first |
//! | from 19 | rows of 16, one word a slot: kind, key, information, want, lock of the want, depth, number of pages beside, then 10 rows of the path and 10 of the pages beside |
//!
//! The word of a page that is held has the page below `HALF`, and above it the number of the kind of its lock. The word of the page that is
//! wanted is the page alone.
//!
//! A kind of operation is one of `kind`; any other is no state at all. A number that is no kind of lock stands for no lock, with which an open
//! slot can neither hold nor want. Words that a slot's kind does not use are not looked at, and are 0 where a call writes the slot.

use std::array::from_fn;

use crate::answer::Answer;
use crate::calls;
use crate::lock::Lock;
use crate::op::{kind, Op};
use crate::state::{Slot, State, SLOTS};

/// Words before the rows: k, N, how many wait, and the waiting order.
pub const FRONT: usize = 3 + SLOTS;

/// Rows by what they say of a slot.
pub mod row {
    /// Its kind; 0 of a closed one.
    pub const KIND: usize = 0;
    /// Its key.
    pub const KEY: usize = 1;
    /// Its information.
    pub const INFORMATION: usize = 2;
    /// The page that it wants.
    pub const WANT: usize = 3;
    /// The kind of lock with which it wants it.
    pub const LOCK: usize = 4;
    /// How long its path is.
    pub const DEPTH: usize = 5;
    /// How many pages stand beside it.
    pub const BESIDE: usize = 6;
    /// From here on the path, each page with the kind of its lock.
    pub const PATH: usize = 7;
    /// From here on the pages beside it, in the same way.
    pub const SIBLINGS: usize = PATH + crate::state::PATH;
    /// Rows in all.
    pub const COUNT: usize = SIBLINGS + crate::state::SIBLINGS;
}

/// How many words a state has.
pub const STATE: usize = FRONT + SLOTS * row::COUNT;

/// Where a row has the word of a slot.
pub fn at(row: usize, slot: usize) -> usize {
    FRONT + SLOTS * row + slot
}

/// What one kind of lock counts in the word of a page that is held; pages are below it.
pub const HALF: u32 = 1 << 16;

/// The word of a page that is held under a kind of lock; there is room for pages below `HALF`.
pub fn held_word(page: u32, lock: Lock) -> u32 {
    page % HALF + HALF * lock.number()
}

/// The page of such a word, and the kind of its lock.
pub fn held_in(word: u32) -> (u32, Lock) {
    (word % HALF, Lock::of(word / HALF))
}

/// The state that the words say; `None` where a slot has a kind of operation that does not exist.
pub fn state_of(words: &[u32; STATE]) -> Option<State> {
    let mut state = State::empty(words[0], words[1]);
    state.waiting = words[2] as usize;
    for (cell, &word) in state.order.iter_mut().zip(&words[3..FRONT]) {
        *cell = word as usize;
    }
    for number in 0..SLOTS {
        state.slots[number] = slot_of(words, number)?;
    }
    Some(state)
}

/// One slot of the words.
fn slot_of(words: &[u32; STATE], number: usize) -> Option<Slot> {
    let word = |row: usize| words[at(row, number)];
    let op = match word(row::KIND) {
        kind::CLOSED => None,
        kind => Some(Op::of(kind, word(row::KEY), word(row::INFORMATION))?),
    };
    let path = |i| held_in(word(row::PATH + i));
    let siblings = |i| held_in(word(row::SIBLINGS + i));
    Some(Slot {
        op,
        want: word(row::WANT),
        lock: Lock::of(word(row::LOCK)),
        depth: word(row::DEPTH) as usize,
        beside: word(row::BESIDE) as usize,
        path: from_fn(|i| path(i).0),
        path_locks: from_fn(|i| path(i).1),
        siblings: from_fn(|i| siblings(i).0),
        sibling_locks: from_fn(|i| siblings(i).1),
    })
}

/// The words of a state.
pub fn words_of(state: &State) -> [u32; STATE] {
    let mut words = [0; STATE];
    words[0] = state.k;
    words[1] = state.n;
    write_order(&mut words, state);
    for number in 0..SLOTS {
        write_slot(&mut words, state, number);
    }
    words
}

/// Writes how many wait, and the waiting order.
fn write_order(words: &mut [u32; STATE], state: &State) {
    words[2] = state.waiting as u32;
    for (word, &cell) in words[3..FRONT].iter_mut().zip(&state.order) {
        *word = cell as u32;
    }
}

/// Writes a slot's column.
fn write_slot(words: &mut [u32; STATE], state: &State, number: usize) {
    let slot = &state.slots[number];
    let (kind, key, information) = slot.op.map_or((kind::CLOSED, 0, 0), Op::numbers);
    let mut write = |row: usize, cell: u32| words[at(row, number)] = cell;
    write(row::KIND, kind);
    write(row::KEY, key);
    write(row::INFORMATION, information);
    write(row::WANT, slot.want);
    write(row::LOCK, slot.lock.number());
    write(row::DEPTH, slot.depth as u32);
    write(row::BESIDE, slot.beside as u32);
    for (i, &page) in slot.path.iter().enumerate() {
        write(row::PATH + i, held_word(page, slot.path_locks[i]));
    }
    for (i, &page) in slot.siblings.iter().enumerate() {
        write(row::SIBLINGS + i, held_word(page, slot.sibling_locks[i]));
    }
}

/// Whether an answer leaves all as given.
fn leaves_all(answer: Answer) -> bool {
    answer.number() <= Answer::Waiting.number()
}

/// Makes a fresh pool; every word of the state is written, also when it refuses.
pub fn make_lent(k: u32, n: u32, state: &mut [u32; STATE], words: &mut [u32]) -> Answer {
    let (answer, made) = calls::make(k, n, words);
    *state = words_of(&made);
    answer
}

/// Opens words as a pool; every word of the state is written, also when it refuses.
pub fn open_lent(k: u32, n: u32, state: &mut [u32; STATE], words: &[u32]) -> Answer {
    let (answer, opened) = calls::open(k, n, words);
    *state = words_of(&opened);
    answer
}

/// Begins an operation.
pub fn begin_lent(state: &mut [u32; STATE], slot: usize, op: Op) -> Answer {
    let Some(given) = state_of(state) else {
        return Answer::BadState;
    };
    let (answer, next) = calls::begin(&given, slot, op);
    if !leaves_all(answer) {
        write_order(state, &next);
        write_slot(state, &next, slot);
    }
    answer
}

/// Steps a slot.
pub fn step_lent(state: &mut [u32; STATE], words: &mut [u32], slot: usize) -> Answer {
    let Some(given) = state_of(state) else {
        return Answer::BadState;
    };
    let (answer, next) = calls::step(&given, words, slot);
    if !leaves_all(answer) {
        write_order(state, &next);
        write_slot(state, &next, slot);
    }
    answer
}

/// Reports the locks on a page.
pub fn report_lent(state: &[u32; STATE], page: u32) -> Answer {
    match state_of(state) {
        Some(given) => calls::report(&given, page),
        None => Answer::BadState,
    }
}
