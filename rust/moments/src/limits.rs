//! States drawn near the limits of soundness; the calls read no page.

use draw::Random;
use twin::{Lock, Op, Slot, State, Way};

use crate::converting::{convert, is_third, spoil_turn};
use crate::fresh::blank_tag;
use crate::moment::{any_lock, spoil_lock, Call, Moment};

/// A report, a beginning and a step on one drawn state, with no words at all.
pub fn limits(random: &mut Random) -> (Moment, Vec<Call>) {
    let state = drawn_state(random);
    let page = random.below(u64::from(state.n.min(30)) + 2) as u32;
    let blank = blank_tag(random);
    let op = random.one(&[Op::Search(5), blank]);
    let calls = vec![
        Call::Report(page),
        Call::Begin(random.below(17) as usize, op),
        Call::Step(random.below(17) as usize),
    ];
    let words = Vec::new();
    (Moment { state, words }, calls)
}

/// A state that is sound or nearly so.
fn drawn_state(random: &mut Random) -> State {
    let k = if random.percent(95) {
        random.from(1, 16) as u32
    } else {
        random.one(&[0, 17])
    };
    let n = match random.below(20) {
        0 => random.one(&[0, 1025, 2000]),
        1..=5 => random.one(&[1, 2, 5, 1024]),
        _ => random.from(30, 300) as u32,
    };
    let mut state = State::empty(k, n);
    let mut next = 0;
    for number in 0..16 {
        if random.percent(25) {
            state.slots[number] = drawn_slot(random, n, &mut next);
        }
    }
    draw_order(random, &mut state);
    state
}

/// An operation, and how many pages it holds on its path and beside it: as many as it may, or some more.
fn drawn_counts(random: &mut Random) -> (Op, usize, usize) {
    let key = random.below(9) as u32;
    let more = usize::from(random.percent(5));
    let both = random.one(&[1, 2, 5, 9, 10, 10]) + usize::from(random.percent(3));
    let beside = random.one(&[0, both / 2, both - 1]) + more;
    let one = random.one(&[0, 1, 1]) + usize::from(random.percent(15));
    // these two may hold the same pages
    let alone = random.one(&[Way::First, Way::Third]);
    match random.below(10) {
        0 => (Op::Search(key), one, 0),
        7 => (Op::Regrade(key, 3, alone), one, 0),
        8 | 9 => (second(random, key), one, 0),
        1 | 2 => (
            Op::Insert(key, 3, alone),
            random.one(&[0, 1, 5, 9, 10, 10]) + more,
            0,
        ),
        3 | 4 => (Op::Delete(key, alone), both, beside),
        _ => (Op::Next(key), both, beside),
    }
}

/// An update of the second way.
fn second(random: &mut Random, key: u32) -> Op {
    random.one(&[
        Op::Insert(key, 3, Way::Second),
        Op::Delete(key, Way::Second),
        Op::Regrade(key, 3, Way::Second),
    ])
}

/// A kind of lock that the operation can want, or now and then another.
fn drawn_lock(random: &mut Random, op: Op) -> Lock {
    match op.way() {
        _ if random.percent(3) => any_lock(random),
        Some(Way::Second) => random.one(&[Lock::UpdaterRho, Lock::Xi]),
        _ => op.holds(),
    }
}

/// An open slot; its pages go on from the last slot's.
fn drawn_slot(random: &mut Random, n: u32, next: &mut u32) -> Slot {
    let (op, depth, beside) = drawn_counts(random);
    // some share pages with the last slot: two that hold with ρ, plain or updater's, may, and one with α beside plain ρ
    if op.holds() != Lock::Xi && random.percent(20) {
        *next = next.saturating_sub(random.below(12) as u32);
    }
    let beside = beside + usize::from(random.percent(2));
    let mut slot = Slot {
        op: Some(op),
        lock: drawn_lock(random, op),
        depth,
        beside,
        ..Slot::CLOSED
    };
    let mut page = |random: &mut Random| {
        *next += 1;
        if random.percent(98) {
            *next % n.max(1)
        } else {
            random.below(u64::from(n) + 2) as u32
        }
    };
    slot.path
        .iter_mut()
        .take(depth)
        .for_each(|cell| *cell = page(random));
    slot.siblings
        .iter_mut()
        .take(beside)
        .for_each(|cell| *cell = page(random));
    slot.want = if random.percent(50) { 0 } else { page(random) };
    slot = slot.holding(op.holds());
    if is_third(op) && random.percent(60) {
        convert(random, &mut slot);
    }
    if is_third(op) && random.percent(10) {
        spoil_turn(random, &mut slot);
    }
    if random.percent(2) {
        spoil_lock(random, &mut slot);
    }
    slot
}

/// The open slots in some order, now and then with one thing wrong.
fn draw_order(random: &mut Random, state: &mut State) {
    let open: Vec<usize> = (0..16)
        .filter(|&slot| state.slots[slot].op.is_some())
        .collect();
    state.order[..open.len()].copy_from_slice(&open);
    state.waiting = open.len();
    for i in 1..open.len() {
        state.order.swap(i, random.below(i as u64 + 1) as usize);
    }
    match random.below(25) {
        0 => state.waiting += 1,
        1 => state.waiting = state.waiting.saturating_sub(1),
        2 => state.order[0] = random.below(18) as usize,
        3 => state.order[15] = random.below(99) as usize,
        4 => state.waiting = 17,
        _ => {}
    }
}
