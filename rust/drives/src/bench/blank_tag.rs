//! The blank tag, as 02 (viii) has it.

use twin::Way::{self, First, Second, Third};
use twin::{at, kind, row, Answer, Op, BLANK_KEY};

use super::opening::{opened, spoiled};
use super::{next_is, three_levels, Case, ALREADY_THERE, DELETED, E, FOUND, INFORMATION, REGRADED};
use crate::scene::begin_line;

pub(super) fn cases() -> Vec<Case> {
    [
        begun(),
        order(),
        nexts(),
        leaves(),
        beside(),
        held(),
        references(),
        openings(),
        vec![open_slots()],
    ]
    .into_iter()
    .flatten()
    .collect()
}

/// Every operation that names a lot, by every way that it has.
fn naming(key: u32) -> Vec<Op> {
    let updates = |way| {
        [
            Op::Insert(key, INFORMATION, way),
            Op::Delete(key, way),
            Op::Regrade(key, INFORMATION, way),
        ]
    };
    let updates = Way::ALL.into_iter().flat_map(updates);
    [Op::Search(key)].into_iter().chain(updates).collect()
}

/// "Begin shall refuse key 0 for every operation but that of (i), as 8 (BadKey)".
fn begun() -> Vec<Case> {
    let refused = |mut case: Case| {
        for op in naming(BLANK_KEY) {
            case.begin(0, op, Answer::BadKey);
            case.call("t 0", Answer::SlotIdle);
            case.call("r 0", Answer::Reported(0, 0, 16));
        }
        case
    };
    let fresh = refused(Case::fresh("a blank tag in a fresh pool", 1));
    let mut e = refused(Case::from_e("a blank tag"));
    e.words(&E);

    // the number beside it is a lot's, and information is any number
    let mut other = Case::fresh("what is no blank tag", 1);
    other.alone(Op::Insert(1, 0, First), 1, Answer::Inserted);
    other.search(1, 1, Answer::Found(0));
    other.next(BLANK_KEY, 1, Answer::Next(1, 0));
    other.alone(Op::Insert(1, 9, First), 1, Answer::AlreadyThere(0));
    other.regrade(1, 0, 1, Answer::Regraded(0));
    other.words(&[[1, 1, 1, 0, 0, 0, 0]]);
    for op in naming(1) {
        other.begin(0, op, Answer::Begun);
        other.call("m 1 1", Answer::Made);
    }
    vec![fresh, e, other]
}

/// "after SlotBusy": BadState, BadSlot and SlotBusy come before it, and a kind that does not exist before all.
fn order() -> Vec<Case> {
    let mut busy = Case::from_e("a blank tag in a busy slot");
    busy.begin(3, Op::Search(10), Answer::Begun);
    for op in naming(BLANK_KEY) {
        busy.begin(3, op, Answer::SlotBusy);
        busy.begin(4, op, Answer::BadKey);
        busy.begin(16, op, Answer::BadSlot);
    }
    busy.call("t 3", Answer::Moved);
    busy.call("t 3", FOUND);
    busy.begin(3, Op::Search(BLANK_KEY), Answer::BadKey);

    let mut unsound = Case::from_e("a blank tag and no sound state");
    unsound.line("s 0 0");
    for op in naming(BLANK_KEY) {
        unsound.begin(0, op, Answer::BadState);
        unsound.begin(16, op, Answer::BadState);
    }

    let mut kinds = Case::fresh("a blank tag and no kind", 1);
    for none in [kind::CLOSED, kind::LAST + 1, u32::MAX] {
        kinds.call(&begin_line(0, (none, BLANK_KEY, 0)), Answer::BadKind);
    }
    vec![busy, unsound, kinds]
}

/// "but that of (i)": the next lot at or above 0 is the first.
fn nexts() -> Vec<Case> {
    let mut empty = Case::fresh("the first lot of none", 1);
    empty.next(BLANK_KEY, 1, Answer::None);
    let mut e = Case::from_e("the first lot");
    e.next(BLANK_KEY, 2, next_is(10));
    let mut three = three_levels("the first lot over three levels");
    three.next(BLANK_KEY, 3, next_is(10));
    vec![empty, e, three]
}

/// "treats a leaf with key 0 as a page that is not sound; so does Damaged": under every operation and way, and once it is put right all goes on.
fn leaves() -> Vec<Case> {
    let mut e = Case::from_e("a leaf with key 0");
    for op in naming(5)
        .into_iter()
        .chain([Op::Next(5), Op::Next(BLANK_KEY)])
    {
        e.line("w 9 0");
        e.begin(0, op, Answer::Begun);
        e.call("t 0", Answer::Moved);
        e.call("t 0", Answer::Damaged);
        e.call("r 1", Answer::Reported(0, 0, 16));
        e.line("w 9 10");
        e.call("o 1 3", Answer::Opened);
    }
    e.words(&E);

    let mut goes_on = Case::from_e("a leaf with key 0 that is put right");
    goes_on.line("w 9 0");
    goes_on.begin(0, Op::Insert(10, 9, Second), Answer::Begun);
    goes_on.call("t 0", Answer::Moved);
    goes_on.call("t 0", Answer::Damaged);
    goes_on.line("w 9 10");
    goes_on.call("t 0", ALREADY_THERE);
    // who goes elsewhere does not meet it
    goes_on.line("w 9 0");
    goes_on.search(20, 2, FOUND);

    let mut root = Case::fresh("page 0 is a leaf with key 0", 1);
    for op in naming(9)
        .into_iter()
        .chain([Op::Next(9), Op::Next(BLANK_KEY)])
    {
        root.call("m 1 1", Answer::Made);
        root.line("w 1 2 0 7 9 7");
        root.begin(0, op, Answer::Begun);
        root.call("t 0", Answer::Damaged);
    }
    root.words(&[[1, 2, 0, 7, 9, 7, 0]]);
    vec![e, goes_on, root]
}

/// A leaf beside the path, and the leaf at which a `Next` ends.
fn beside() -> Vec<Case> {
    let mut sibling = Case::from_e("a sibling with key 0");
    for way in [First, Third] {
        sibling.line("w 16 0");
        sibling.begin(0, Op::Delete(10, way), Answer::Begun);
        sibling.call("t 0", Answer::Moved);
        sibling.call("t 0", Answer::Moved);
        sibling.call("t 0", Answer::Damaged);
        sibling.line("w 16 20");
        sibling.call("o 1 3", Answer::Opened);
    }
    sibling.words(&E);

    let mut second = Case::from_e("a next and a second leaf with key 0");
    second.line("w 16 0");
    second.begin(0, Op::Next(11), Answer::Begun);
    second.call("t 0", Answer::Moved);
    second.call("t 0", Answer::Moved);
    second.call("t 0", Answer::Damaged);
    second.line("w 16 20");
    second.call("t 0", next_is(20));
    vec![sibling, second]
}

/// A leaf that is held when it gets key 0: by a deletion that wants the sibling, by a `Next` that crosses, and by who converts.
fn held() -> Vec<Case> {
    // k = 2: page 0 above the leaves 1 (10, 20) and 2 (30, 40)
    let wide = |name| {
        let mut case = Case::made(name, 2, 3, Answer::Made);
        case.line("w 0 2 1 1 30 2");
        case.line("w 11 1 2 10 7 20 7");
        case.line("w 22 1 2 30 7 40 7");
        case.call("o 2 3", Answer::Opened);
        case
    };
    let mut held = Vec::new();
    for (name, op, granted, answer) in [
        ("a deletion holds key 0", Op::Delete(20, First), 2, DELETED),
        ("a next holds key 0", Op::Next(25), 2, next_is(30)),
        (
            "a conversion with key 0",
            Op::Regrade(20, 9, Third),
            2,
            REGRADED,
        ),
        (
            "an insertion converts with key 0",
            Op::Insert(15, 7, Third),
            2,
            Answer::Inserted,
        ),
    ] {
        let mut case = wide(name);
        case.begin(0, op, Answer::Begun);
        (0..granted).for_each(|_| case.call("t 0", Answer::Moved));
        case.line("w 13 0");
        case.call("t 0", Answer::Damaged);
        case.line("w 13 10");
        case.call("t 0", answer);
        held.push(case);
    }
    held
}

/// Only leaves are named: an upper page may have reference key 0, and every key is led to the right of it.
fn references() -> Vec<Case> {
    let mut passes = Case::from_e("a reference key 0");
    passes.line("w 3 0");
    passes.search(20, 2, FOUND);
    passes.search(5, 2, Answer::NotFound);
    passes.next(BLANK_KEY, 2, next_is(20));
    passes.regrade(20, INFORMATION, 2, REGRADED);
    passes.alone(Op::Insert(5, 7, Second), 4, Answer::NoRoom);
    passes.alone(Op::Delete(10, Third), 2, Answer::NoSuchKey);
    passes.words(&[[2, 1, 1, 0, 2, 0, 0], E[1], E[2]]);

    let mut changed = Case::from_e_with_room("a page with reference key 0 is changed");
    changed.line("w 3 0");
    changed.insert(5, 2, Answer::Inserted);
    let left = [[2, 2, 1, 0, 2, 20, 3], [1, 1, 5, 7, 0, 0, 0]];
    changed.words(&[left[0], E[1], left[1], E[2]]);
    vec![passes, changed]
}

/// "The check of (vii) treats a leaf with key 0 as a page that is not sound".
fn openings() -> Vec<Case> {
    let named = Answer::BadPageInPool;
    let root = [[1, 1, 0, 7, 0, 0, 0]];
    let empty = [[1, 0, 0, 0, 0, 0, 0]];
    vec![
        spoiled("a leaf with key 0 opened", &E, &[(1, 2, 0)], named(1)),
        spoiled("the other leaf opened", &E, &[(2, 2, 0)], named(2)),
        spoiled("two of them", &E, &[(1, 2, 0), (2, 2, 0)], named(1)),
        spoiled("a lower bad page", &E, &[(2, 2, 0), (1, 6, 1)], named(1)),
        spoiled("a higher bad page", &E, &[(1, 2, 0), (2, 6, 1)], named(1)),
        spoiled("and no tree", &E, &[(1, 2, 0), (0, 0, 3)], named(1)),
        opened("page 0 with key 0 opened", &root, named(0)),
        opened("page 0 without a key opened", &empty, Answer::Opened),
        // the range below it is empty, and the leaf there is not
        spoiled("reference key 0", &E, &[(0, 3, 0)], Answer::BadTree),
        spoiled("and a leaf", &E, &[(0, 3, 0), (1, 2, 0)], named(1)),
        spoiled("the lowest lot", &E, &[(1, 2, 1)], Answer::Opened),
        spoiled("information 0", &E, &[(1, 3, 0)], Answer::Opened),
    ]
}

/// 02 speaks of begin: a slot that is open with key 0 in a state that is handed in goes on. What it enters is a leaf with key 0.
fn open_slots() -> Case {
    let mut case = Case::fresh("a slot that is open with key 0", 1);
    let key = format!("s {} 0", at(row::KEY, 0));
    for (op, answers) in [
        (Op::Search(10), &[Answer::NotFound][..]),
        (Op::Delete(10, First), &[Answer::NoSuchKey]),
        (
            Op::Insert(10, 7, Second),
            &[Answer::Moved, Answer::Inserted],
        ),
    ] {
        case.begin(0, op, Answer::Begun);
        case.line(&key);
        case.call("r 0", Answer::Reported(0, 0, 16));
        answers.iter().for_each(|&answer| case.call("t 0", answer));
    }
    case.words(&[[1, 1, 0, 7, 0, 0, 0]]);
    case.begin(0, Op::Search(10), Answer::Begun);
    case.call("t 0", Answer::Damaged);
    case.call("o 1 1", Answer::BadPageInPool(0));
    case
}
