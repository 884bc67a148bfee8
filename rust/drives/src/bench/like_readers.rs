//! Updates that go down like readers, as 02 (v) has them, and the kind of lock with which they do, as 02 (vi) has it.

use twin::Way::{First, Second};
use twin::{at, row, Answer, Op, HALF};

use super::{
    three_levels, waits, Case, ALREADY_THERE, DELETED, E, FOUND, INFORMATION, INSERT, REGRADED,
    SEARCH,
};

/// An insertion by the second way, of a key for cases of who waits.
const SECOND: Op = Op::Insert(5, INFORMATION, Second);

/// What a report says of a page: nobody holds it; slot 0 does alone, with ρ, with ξ, or with updater's ρ; or two slots do, and one of them
/// with updater's ρ.
const NOBODY: Answer = Answer::Reported(0, 0, 16);
const RHO: Answer = Answer::Reported(1, 1, 0);
const XI: Answer = Answer::Reported(2, 1, 0);
const UPDATER: Answer = Answer::Reported(3, 1, 0);
const WITH_UPDATER: Answer = Answer::Reported(3, 2, 0);

pub(super) fn cases() -> Vec<Case> {
    [at_once(), changed(), again(), together(), kinds()]
        .into_iter()
        .flatten()
        .collect()
}

/// "A key already there or missing is answered at once": also where the leaf is not safe.
fn at_once() -> Vec<Case> {
    let there = "a key is there, by the second way";
    Case::at_once(Second, there, "a key is missing, by the second way")
}

/// "a safe leaf is changed"
fn changed() -> Vec<Case> {
    let mut room = Case::from_e("a leaf with room, by the second way");
    room.alone(SECOND, 2, Answer::Inserted);
    room.words(&[E[0], [1, 2, 5, 7, 10, 7, 0], E[2]]);

    let mut spare = Case::from_e("a leaf that is not short then, by the second way");
    spare.alone(Op::Delete(20, Second), 2, DELETED);
    spare.words(&[E[0], E[1], [1, 1, 30, 7, 0, 0, 0]]);

    let mut regraded = Case::from_e("a lot is regraded, by the second way");
    regraded.alone(Op::Regrade(20, 9, Second), 2, REGRADED);
    regraded.alone(Op::Regrade(10, 8, Second), 2, REGRADED);
    regraded.words(&[E[0], [1, 1, 10, 8, 0, 0, 0], [1, 2, 20, 9, 30, 7, 0]]);

    vec![room, spare, regraded, holds_one()]
}

/// "ρ-locks down, a ξ-lock wanted on the leaf"; and "The ρ of (v) becomes a kind of its own, updater's ρ."
fn holds_one() -> Case {
    let mut case = three_levels("by the second way one page is held, with others");
    case.begin(0, Op::Insert(15, 7, Second), Answer::Begun);
    case.call("t 0", Answer::Moved);
    case.call("r 0", UPDATER);
    case.call("t 0", Answer::Moved);
    case.call("r 0", NOBODY);
    case.call("r 5", UPDATER);
    case.call("r 1", NOBODY);
    case.begin(1, Op::Search(20), Answer::Begun);
    case.call("t 1", Answer::Moved);
    case.call("t 1", Answer::Moved);
    case.call("r 5", WITH_UPDATER);
    case.call("t 0", Answer::Inserted);
    case.call("t 1", FOUND);
    case
}

/// "otherwise all locks are given up and the operation begins again by the first way"
fn again() -> Vec<Case> {
    let mut full = Case::from_e_with_room("a full leaf begins again");
    full.begin(0, Op::Insert(25, 7, Second), Answer::Begun);
    for report in [UPDATER, NOBODY, XI] {
        full.call("t 0", Answer::Moved);
        full.call("r 0", report);
        full.call("r 2", NOBODY);
    }
    full.call("t 0", Answer::Inserted);
    full.words(&[
        [2, 2, 1, 20, 2, 25, 3],
        [1, 1, 10, 7, 0, 0, 0],
        [1, 1, 20, 7, 0, 0, 0],
        [1, 2, 25, 7, 30, 7, 0],
    ]);

    // three levels: what is held then is not page 0, and is given up too
    let mut held = three_levels("what is held is given up");
    held.begin(0, Op::Delete(20, Second), Answer::Begun);
    held.call("t 0", Answer::Moved);
    held.call("t 0", Answer::Moved);
    held.call("r 5", UPDATER);
    held.call("t 0", Answer::Moved);
    held.call("r 5", NOBODY);
    held.call("t 0", Answer::Moved);
    held.call("r 0", XI);

    // case G
    let mut short = Case::from_e("a leaf that would be short begins again");
    short.alone(Op::Delete(10, Second), 5, DELETED);
    short.words(&[
        [2, 1, 1, 30, 2, 0, 0],
        [1, 1, 20, 7, 0, 0, 0],
        [1, 1, 30, 7, 0, 0, 0],
    ]);

    vec![full, held, short, root_leaf(), stands_last()]
}

/// "If page 0 is a leaf, it begins again in any case."
fn root_leaf() -> Case {
    let mut case = Case::fresh("a root leaf begins again", 1);
    for (op, answer) in [
        (Op::Delete(10, Second), Answer::NoSuchKey),
        (Op::Insert(10, 7, Second), Answer::Inserted),
        (Op::Insert(10, 9, Second), ALREADY_THERE),
        (Op::Regrade(10, 9, Second), REGRADED),
        (Op::Delete(10, Second), Answer::Deleted(9)),
    ] {
        case.alone(op, 2, answer);
    }
    case
}

/// "the want of page 0 goes to the end of the order"
fn stands_last() -> Case {
    let mut case = Case::from_e("one that has begun again stands last");
    case.begin(0, Op::Delete(10, Second), Answer::Begun);
    case.call("t 0", Answer::Moved);
    case.begin(1, Op::Search(20), Answer::Begun);
    case.call("t 0", Answer::Moved);
    case.begin(2, Op::Search(10), Answer::Begun);
    case.call("t 0", Answer::Waiting);
    case.call("t 2", Answer::Waiting);
    case.call("t 1", Answer::Moved);
    case.call("t 1", FOUND);
    case.call("t 0", Answer::Moved);
    case
}

/// Two or more slots at once.
fn together() -> Vec<Case> {
    // "updates that don't hold buyers out of the top page"
    let mut j = Case::from_e("J by the second way");
    j.begin(0, Op::Search(10), Answer::Begun);
    j.call("t 0", Answer::Moved);
    j.begin(1, Op::Delete(20, Second), Answer::Begun);
    j.call("t 1", Answer::Moved);
    j.call("r 0", WITH_UPDATER);
    j.call("t 1", DELETED);
    j.call("t 0", FOUND);

    let mut before = Case::from_e("a search finds the top page free");
    before.begin(0, SECOND, Answer::Begun);
    before.begin(1, Op::Search(10), Answer::Begun);
    before.call("t 1", Answer::Moved);
    before.call("t 0", Answer::Moved);
    before.call("t 0", Answer::Waiting);
    before.call("t 1", FOUND);
    before.call("t 0", Answer::Inserted);

    vec![
        j,
        before,
        behind_next(),
        before_search(),
        on_one_leaf(),
        waits(
            "a second way behind a first",
            (INSERT, Answer::Inserted),
            (SECOND, Answer::Moved),
        ),
        waits(
            "a first way behind a second",
            (SECOND, Answer::Moved),
            (INSERT, Answer::Inserted),
        ),
        together_in_a_leaf(),
    ]
}

/// The leaf on which a Next rests is not to be had with ξ.
fn behind_next() -> Case {
    let mut case = Case::from_e("a second way behind a next on its leaf");
    case.begin(0, Op::Next(15), Answer::Begun);
    case.call("t 0", Answer::Moved);
    case.call("t 0", Answer::Moved);
    case.begin(1, SECOND, Answer::Begun);
    case.call("t 1", Answer::Moved);
    case.call("t 1", Answer::Waiting);
    case.call("t 0", Answer::Next(20, 7));
    case.call("t 1", Answer::Inserted);
    case
}

/// An older want of a leaf with ξ is waited for.
fn before_search() -> Case {
    let mut case = Case::from_e("a search behind a second way that wants the leaf");
    case.begin(1, Op::Delete(20, Second), Answer::Begun);
    case.call("t 1", Answer::Moved);
    case.begin(0, Op::Search(30), Answer::Begun);
    case.call("t 0", Answer::Moved);
    case.call("t 0", Answer::Waiting);
    case.call("t 1", DELETED);
    case.call("t 0", FOUND);
    case
}

/// Two insertions by the second way: the younger finds the leaf full, and begins again.
fn on_one_leaf() -> Case {
    let mut case = Case::from_e_with_room("two second ways on one leaf");
    case.begin(0, SECOND, Answer::Begun);
    case.begin(1, Op::Insert(6, 7, Second), Answer::Begun);
    case.call("t 0", Answer::Moved);
    case.call("t 1", Answer::Moved);
    case.call("r 0", WITH_UPDATER);
    case.call("t 1", Answer::Waiting);
    case.call("t 0", Answer::Inserted);
    case.call("t 1", Answer::Moved);
    case.call("r 0", NOBODY);
    case.call("t 1", Answer::Moved);
    case.call("t 1", Answer::Inserted);
    case.words(&[
        [2, 2, 1, 6, 3, 20, 2],
        [1, 1, 5, 7, 0, 0, 0],
        E[2],
        [1, 2, 6, 7, 10, 7, 0],
    ]);
    case
}

/// In an empty pool a search passes a second way, and once that has begun again it does not.
fn together_in_a_leaf() -> Case {
    let mut case = Case::fresh("a search behind a second way in an empty pool", 1);
    case.begin(0, SECOND, Answer::Begun);
    case.begin(1, SEARCH, Answer::Begun);
    case.call("t 1", Answer::NotFound);
    case.call("t 0", Answer::Moved);
    case.begin(1, SEARCH, Answer::Begun);
    case.call("t 1", Answer::Waiting);
    case.call("t 0", Answer::Inserted);
    case.call("t 1", FOUND);
    case
}

/// The kinds of lock on a page.
fn kinds() -> Vec<Case> {
    // "a lock report gives the first that is there of ξ, α, updater's ρ, ρ": the lowest holder is told beside it
    let mut strongest = Case::from_e("a report tells the strongest kind");
    strongest.begin(0, Op::Search(10), Answer::Begun);
    strongest.call("t 0", Answer::Moved);
    strongest.call("r 0", RHO);
    strongest.begin(1, SECOND, Answer::Begun);
    strongest.call("t 1", Answer::Moved);
    strongest.call("r 0", WITH_UPDATER);
    strongest.call("t 0", FOUND);
    strongest.call("r 0", Answer::Reported(3, 1, 1));

    vec![
        strongest,
        carried("a page held by a search", Op::Search(10), 1),
        carried("a page held by the first way", Op::Delete(10, First), 2),
        carried("a page held by the second way", SECOND, 3),
    ]
}

/// "Each held page now carries its kind": page 0 is held with the operation's own kind; with every other number there the state is not sound.
fn carried(name: &'static str, op: Op, own: u32) -> Case {
    let mut case = Case::from_e(name);
    case.begin(0, op, Answer::Begun);
    case.call("t 0", Answer::Moved);
    for number in [0, 1, 2, 3, 4, 5, 7, own] {
        let word = HALF * number;
        case.lines.push(format!("s {} {word}", at(row::PATH, 0)));
        let answer = if number == own {
            Answer::Reported(own, 1, 0)
        } else {
            Answer::BadState
        };
        case.call("r 0", answer);
    }
    case
}
