//! When a state is sound, clause by clause of document 01 and of 02 (vi): a state that breaks one clause alone is
//! BadState for every call, and the state beside it, just inside the limit, is not.

use twin::Way::{First, Second, Third};
use twin::{begin, make, report, step, Answer, Lock, Op, Slot, State};

const K: u32 = 2;
const N: u32 = 64;

/// An idle state over a fresh pool, and its words.
fn idle() -> (State, Vec<u32>) {
    let mut words = vec![0; 64 * 11];
    let (answer, state) = make(K, N, &mut words);
    assert_eq!(answer, Answer::Made);
    (state, words)
}

/// The kind of lock with which an operation goes down.
fn own(op: Op) -> Lock {
    match op {
        Op::Search(_) | Op::Next(_) => Lock::Rho,
        Op::Insert(_, _, way) | Op::Delete(_, way) | Op::Regrade(_, _, way) => match way {
            First => Lock::Xi,
            Second => Lock::UpdaterRho,
            Third => Lock::Alpha,
        },
    }
}

/// A slot that holds these pages and wants one more, all with the kind of lock with which it goes down.
fn slot(op: Op, want: u32, path: &[u32], siblings: &[u32]) -> Slot {
    let mut slot = Slot {
        op: Some(op),
        want,
        lock: own(op),
        ..Slot::CLOSED
    };
    slot.path[..path.len()].copy_from_slice(path);
    slot.path_locks[..path.len()].fill(own(op));
    slot.depth = path.len();
    slot.siblings[..siblings.len()].copy_from_slice(siblings);
    slot.sibling_locks[..siblings.len()].fill(own(op));
    slot.beside = siblings.len();
    slot
}

/// The idle state with these slots open, in this waiting order.
fn with(slots: &[(usize, Slot)]) -> State {
    let (mut state, _) = idle();
    for (place, &(number, slot)) in slots.iter().enumerate() {
        state.slots[number] = slot;
        state.order[place] = number;
    }
    state.waiting = slots.len();
    state
}

/// Whether every call says BadState; they must agree.
fn bad(state: &State) -> bool {
    let (_, words) = idle();
    let mut after = words.clone();
    let stepped = step(state, &mut after, 0).0 == Answer::BadState;
    let begun = begin(state, 15, Op::Search(1)).0 == Answer::BadState;
    let reported = report(state, 0) == Answer::BadState;
    assert_eq!((stepped, begun), (begun, reported));
    assert!(!stepped || after == words);
    stepped
}

/// The updates by the second way.
const SECOND: [Op; 3] = [
    Op::Insert(5, 1, Second),
    Op::Delete(5, Second),
    Op::Regrade(5, 1, Second),
];

/// And by the third.
const THIRD: [Op; 3] = [
    Op::Insert(5, 1, Third),
    Op::Delete(5, Third),
    Op::Regrade(5, 1, Third),
];

/// Every kind of lock, and none.
const LOCKS: [Lock; 5] = [
    Lock::None,
    Lock::Rho,
    Lock::Xi,
    Lock::UpdaterRho,
    Lock::Alpha,
];

/// The first pages, from 1.
fn pages(count: u32) -> Vec<u32> {
    (1..=count).collect()
}

#[test]
fn k_and_n_in_range() {
    for (k, n, unsound) in [
        (1, 1, false),
        (16, 1024, false),
        (0, 1, true),
        (17, 1, true),
        (1, 0, true),
        (1, 1025, true),
    ] {
        let (mut state, _) = idle();
        (state.k, state.n) = (k, n);
        assert_eq!(bad(&state), unsound, "k {k}, n {n}");
    }
}

#[test]
fn the_order_names_each_open_slot_once_and_no_other() {
    let open = slot(Op::Search(5), 0, &[], &[]);
    let sound = with(&[(3, open), (7, open)]);
    assert!(!bad(&sound));
    let mut forgets = sound;
    forgets.waiting = 1;
    assert!(bad(&forgets));
    let mut twice = sound;
    twice.order[1] = 3;
    assert!(bad(&twice));
    let mut closed = sound;
    closed.order[2] = 4;
    closed.waiting = 3;
    assert!(bad(&closed));
    let mut above = sound;
    above.order[1] = 16;
    assert!(bad(&above));
    let mut many = sound;
    many.waiting = 17;
    assert!(bad(&many));
    let mut behind = sound;
    behind.order[2] = 99;
    assert!(!bad(&behind), "cells behind the order are not looked at");
}

#[test]
fn all_pages_named_are_below_n() {
    for op in [Op::Delete(5, First), Op::Next(5), Op::Delete(5, Third)] {
        for (want, path, sibling, unsound) in [
            (63, 62, 61, false),
            (64, 62, 61, true),
            (63, 64, 61, true),
            (63, 62, 64, true),
        ] {
            let state = with(&[(0, slot(op, want, &[path, 9], &[sibling]))]);
            assert_eq!(bad(&state), unsound, "{op:?}: {want} {path} {sibling}");
        }
    }
}

#[test]
fn no_slot_holds_a_page_twice_or_wants_one_it_holds() {
    for op in [Op::Delete(5, First), Op::Next(5), Op::Delete(5, Third)] {
        assert!(!bad(&with(&[(0, slot(op, 4, &[1, 2], &[3]))])));
        assert!(bad(&with(&[(0, slot(op, 4, &[1, 1], &[3]))])));
        assert!(bad(&with(&[(0, slot(op, 4, &[1, 2], &[2]))])));
        assert!(bad(&with(&[(0, slot(op, 4, &[1, 2, 6], &[3, 3]))])));
        assert!(bad(&with(&[(0, slot(op, 2, &[1, 2], &[3]))])));
        assert!(bad(&with(&[(0, slot(op, 3, &[1, 2], &[3]))])));
    }
}

#[test]
fn how_many_pages_an_operation_holds() {
    let held = |op, path: u32, siblings: u32| {
        let siblings: Vec<u32> = (20..20 + siblings).collect();
        bad(&with(&[(0, slot(op, 50, &pages(path), &siblings))]))
    };
    let (search, insert, delete) = (Op::Search(5), Op::Insert(5, 1, First), Op::Delete(5, First));
    let next = Op::Next(5);
    let regrade = Op::Regrade(5, 1, First);
    assert!(!held(search, 1, 0) && held(search, 2, 0));
    assert!(!held(regrade, 0, 0) && !held(regrade, 1, 0) && held(regrade, 2, 0));
    assert!(!held(insert, 10, 0));
    assert!(!held(delete, 10, 9));
    assert!(!held(delete, 3, 0) && !held(delete, 3, 2) && held(delete, 3, 3));
    assert!(!held(next, 10, 9) && !held(next, 10, 0));
    assert!(!held(next, 3, 0) && !held(next, 3, 2) && held(next, 3, 3));
    assert!(!held(next, 0, 0) && held(next, 0, 1) && held(next, 1, 1));
    assert!(held(search, 1, 1) && held(insert, 2, 1) && held(regrade, 1, 1));
    assert!(held(regrade, 2, 1) && held(regrade, 0, 1) && held(regrade, 10, 0));
    for op in SECOND {
        assert!(!held(op, 0, 0) && !held(op, 1, 0), "{op:?}");
        assert!(held(op, 2, 0) && held(op, 10, 0), "{op:?}");
        assert!(held(op, 1, 1) && held(op, 0, 1) && held(op, 2, 1), "{op:?}");
    }
    for op in [insert, delete, next] {
        let mut longer = with(&[(0, slot(op, 50, &pages(10), &[]))]);
        longer.slots[0].depth = 11;
        assert!(bad(&longer), "{op:?}");
    }
    for op in [delete, next] {
        let siblings = [20, 21, 22, 23, 24, 25, 26, 27, 28];
        let mut more = with(&[(0, slot(op, 50, &pages(10), &siblings))]);
        more.slots[0].beside = 10;
        more.slots[0].sibling_locks[9] = own(op);
        assert!(bad(&more), "{op:?}");
    }
}

#[test]
fn a_closed_slot_holds_nothing() {
    for (depth, beside, unsound) in [(0, 0, false), (1, 0, true), (0, 1, true)] {
        let (mut state, _) = idle();
        (state.slots[9].depth, state.slots[9].beside) = (depth, beside);
        assert_eq!(bad(&state), unsound);
    }
    let (mut state, _) = idle();
    state.slots[9].want = 9999;
    state.slots[9].lock = Lock::Xi;
    state.slots[9].path_locks = [Lock::Alpha; 10];
    assert!(
        !bad(&state),
        "a closed slot names no page, and no lock for one"
    );
}

/// Every operation by every way that it has.
fn operations() -> Vec<Op> {
    let read = [Op::Search(5), Op::Next(5)];
    let first = SECOND.map(|op| op.by(First));
    [&read[..], &first, &SECOND, &THIRD].concat()
}

#[test]
fn a_lock_is_one_that_the_operation_can_want_at_all() {
    for op in operations() {
        for lock in LOCKS {
            let wants = |path: &[u32]| !bad(&with(&[(0, slot(op, 4, path, &[]).wanting(lock))]));
            // which of two is due goes by the pages
            let can = lock == own(op) || (SECOND.contains(&op) && lock == Lock::Xi);
            assert_eq!((wants(&[1]), wants(&[])), (can, can), "{op:?} {lock:?}");
        }
    }
}

/// "Each held page now carries its kind": it is the one with which the operation goes down, or by the third way ξ, of every page that is held.
#[test]
fn a_page_is_held_under_a_kind_that_the_operation_can_hold() {
    for op in operations() {
        for lock in LOCKS {
            // by the third way it may be converted
            let right = lock == own(op) || (THIRD.contains(&op) && lock == Lock::Xi);
            let mut one = slot(op, 40, &[1], &[]);
            one.path_locks[0] = lock;
            assert_eq!(bad(&with(&[(3, one)])), !right, "{op:?} {lock:?}");
            // a cell behind the path, and one beside it, hold nothing
            let mut behind = slot(op, 40, &[1], &[]);
            (behind.path_locks[1], behind.sibling_locks[0]) = (lock, lock);
            assert!(!bad(&with(&[(3, behind)])), "{op:?} {lock:?}");
            // the same before the first page is granted
            let mut begun = slot(op, 0, &[], &[]);
            (begun.path_locks[0], begun.sibling_locks[0]) = (lock, lock);
            assert!(!bad(&with(&[(3, begun)])), "{op:?} {lock:?}");
        }
    }
}

#[test]
fn the_kind_of_each_of_many_is_looked_at() {
    for op in [Op::Delete(5, First), Op::Next(5), Op::Delete(5, Third)] {
        let siblings = [20, 21, 22, 23, 24, 25, 26, 27, 28];
        let many = slot(op, 40, &pages(10), &siblings);
        assert!(!bad(&with(&[(3, many)])));
        let is_wrong =
            |lock: &Lock| *lock != own(op) && (own(op), *lock) != (Lock::Alpha, Lock::Xi);
        for lock in LOCKS.into_iter().filter(is_wrong) {
            for at in 0..19 {
                let mut wrong = many;
                match at {
                    ..10 => wrong.path_locks[at] = lock,
                    _ => wrong.sibling_locks[at - 10] = lock,
                }
                assert!(bad(&with(&[(3, wrong)])), "{op:?} {lock:?} {at}");
            }
        }
    }
}

/// "a sound state has no clashing kinds on a page"
#[test]
fn no_updated_page_is_held_by_another_slot() {
    let (search, insert, delete) = (Op::Search(5), Op::Insert(5, 1, First), Op::Delete(5, First));
    let both = |a, b| {
        bad(&with(&[
            (0, slot(a, 40, &[7], &[])),
            (1, slot(b, 41, &[7], &[])),
        ]))
    };
    let next = Op::Next(5);
    assert!(!both(search, search) && !both(search, next) && !both(next, next));
    assert!(both(next, insert) && both(insert, next) && both(next, delete) && both(delete, next));
    assert!(
        both(search, insert)
            && both(insert, search)
            && both(insert, delete)
            && both(delete, delete)
    );
    let regrade = Op::Regrade(5, 1, First);
    for op in [search, next, insert, delete, regrade] {
        assert!(both(regrade, op) && both(op, regrade), "{op:?}");
    }
    // by the second way a page is held with updater's ρ, whatever is wanted next
    for op in SECOND {
        assert!(!both(op, search) && !both(search, op) && !both(op, next) && !both(next, op));
        assert!(SECOND.iter().all(|&other| !both(op, other)));
        for first in [insert, delete, regrade] {
            assert!(both(op, first) && both(first, op), "{op:?} {first:?}");
        }
        let alone = slot(op, 40, &[7], &[]).wanting(Lock::Xi);
        assert!(!bad(&with(&[(0, alone), (1, slot(search, 41, &[7], &[]))])));
    }
    let beside = |a, b| {
        bad(&with(&[
            (0, slot(a, 40, &[7, 8], &[9])),
            (1, slot(b, 41, &[9], &[])),
        ]))
    };
    assert!(beside(delete, search) && beside(delete, insert) && beside(delete, next));
    assert!(beside(next, insert) && beside(next, delete));
    assert!(beside(next, regrade) && beside(delete, regrade));
    assert!(!beside(next, search) && !beside(next, next));
    assert!(SECOND
        .iter()
        .all(|&op| !beside(next, op) && beside(delete, op)));
    let wanted = with(&[
        (0, slot(insert, 40, &[7], &[])),
        (1, slot(search, 7, &[6], &[])),
    ]);
    assert!(!bad(&wanted), "a want is no lock");
}
