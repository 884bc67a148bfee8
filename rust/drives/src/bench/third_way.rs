//! A lock that lets readers stay: updates by the third way, as 02 (vi) has them.

use twin::Way::{First, Second, Third};
use twin::{at, row, Answer, Op, HALF};

use super::{three_levels, Case, DELETED, E, FOUND, INFORMATION, REGRADED};

/// An insertion by the third way into the leaf of E that has room.
const THIRD: Op = Op::Insert(5, INFORMATION, Third);

/// What a report says of a page: nobody holds it; slot 0 does alone, with ξ or with α; or two slots do, one of them with α.
const NOBODY: Answer = Answer::Reported(0, 0, 16);
const XI: Answer = Answer::Reported(2, 1, 0);
const ALPHA: Answer = Answer::Reported(4, 1, 0);
const WITH_ALPHA: Answer = Answer::Reported(4, 2, 0);

pub(super) fn cases() -> Vec<Case> {
    [at_once(), changed(), readers(), wants(), pairs()]
        .into_iter()
        .flatten()
        .collect()
}

/// The report of each of these pages, one after the other.
fn reports(case: &mut Case, told: &[(u32, Answer)]) {
    for &(page, answer) in told {
        case.call(&format!("r {page}"), answer);
    }
}

/// A key already there or missing is answered at once, with α alone.
fn at_once() -> Vec<Case> {
    let there = "a key is there, by the third way";
    Case::at_once(Third, there, "a key is missing, by the third way")
}

/// "When the change is known, path and siblings are converted to ξ from the top down, path page before sibling on each level, one conversion a
/// step."
fn changed() -> Vec<Case> {
    let mut room = Case::from_e("a leaf with room, by the third way");
    room.begin(0, THIRD, Answer::Begun);
    for told in [[ALPHA, NOBODY], [NOBODY, ALPHA]] {
        room.call("t 0", Answer::Moved);
        reports(&mut room, &[(0, told[0]), (1, told[1])]);
    }
    room.call("t 0", Answer::Inserted);
    room.words(&[E[0], [1, 2, 5, 7, 10, 7, 0], E[2]]);

    let mut spare = Case::from_e("a leaf that is not short then, by the third way");
    spare.alone(Op::Delete(20, Third), 3, DELETED);
    spare.words(&[E[0], E[1], [1, 1, 30, 7, 0, 0, 0]]);

    let mut regraded = Case::from_e("a lot is regraded, by the third way");
    regraded.alone(Op::Regrade(20, 9, Third), 3, REGRADED);
    regraded.words(&[E[0], E[1], [1, 2, 20, 9, 30, 7, 0]]);

    let mut root = Case::fresh("a root leaf, by the third way", 1);
    root.alone(Op::Insert(10, 7, Third), 2, Answer::Inserted);
    root.alone(Op::Insert(20, 7, Third), 2, Answer::Inserted);
    root.alone(Op::Insert(30, 7, Third), 2, Answer::NoRoom);
    root.alone(Op::Delete(10, Third), 2, DELETED);
    root.words(&[[1, 1, 20, 7, 0, 0, 0]]);

    vec![
        room,
        spare,
        regraded,
        root,
        full(),
        no_room(),
        two_siblings(),
        room_is_gone(),
    ]
}

/// Pages 0 and 2 are converted, and the leaf is split with the last.
fn full() -> Case {
    let mut case = Case::from_e_with_room("a full leaf, by the third way");
    case.begin(0, Op::Insert(25, 7, Third), Answer::Begun);
    for told in [[ALPHA, NOBODY], [ALPHA, ALPHA], [XI, ALPHA]] {
        case.call("t 0", Answer::Moved);
        reports(&mut case, &[(0, told[0]), (2, told[1])]);
    }
    case.call("t 0", Answer::Inserted);
    case.words(&[
        [2, 2, 1, 20, 2, 25, 3],
        [1, 1, 10, 7, 0, 0, 0],
        [1, 1, 20, 7, 0, 0, 0],
        [1, 2, 25, 7, 30, 7, 0],
    ]);
    case
}

/// "Room is counted in the step that makes the change, after the last conversion."
fn no_room() -> Case {
    let mut case = Case::from_e("no room, by the third way");
    case.alone(Op::Insert(25, 7, Third), 4, Answer::NoRoom);
    case.words(&E);
    reports(&mut case, &[(0, NOBODY), (2, NOBODY)]);
    case
}

/// A page that is free when the change is known is taken by another before the last conversion.
fn room_is_gone() -> Case {
    let mut case = three_levels("room is gone before the last conversion");
    case.insert(15, 3, Answer::Inserted);
    case.begin(0, Op::Insert(45, 7, Third), Answer::Begun);
    for _ in 0..3 {
        case.call("t 0", Answer::Moved);
    }
    case.begin(1, Op::Insert(12, 7, First), Answer::Begun);
    case.call("t 1", Answer::Moved);
    case.call("t 1", Answer::Moved);
    case.call("t 1", Answer::Inserted);
    case.call("t 0", Answer::Moved);
    case.call("t 0", Answer::NoRoom);
    case
}

/// Page 0, pages 5 and 6, pages 1 and 2.
fn two_siblings() -> Case {
    let mut case = three_levels("a deletion with two siblings, by the third way");
    case.begin(0, Op::Delete(10, Third), Answer::Begun);
    let mut held = [0, 5, 1, 2, 6].map(|page| (page, NOBODY));
    for at in 0..5 {
        held[at].1 = ALPHA;
        case.call("t 0", Answer::Moved);
        reports(&mut case, &held);
    }
    for page in [0, 5, 6, 1] {
        let its = held.iter_mut().find(|(own, _)| *own == page);
        its.expect("a page that is held").1 = XI;
        case.call("t 0", Answer::Moved);
        reports(&mut case, &held);
    }
    case.call("t 0", DELETED);
    case.words(&[
        [2, 2, 1, 30, 3, 40, 4],
        [1, 1, 20, 7, 0, 0, 0],
        [0; 7],
        [1, 1, 30, 7, 0, 0, 0],
        [1, 2, 40, 7, 50, 7, 0],
        [0; 7],
        [0; 7],
    ]);
    case
}

/// "A lock that lets readers stay."
fn readers() -> Vec<Case> {
    let mut j = Case::from_e("J by the third way");
    j.begin(0, Op::Search(10), Answer::Begun);
    j.call("t 0", Answer::Moved);
    j.begin(1, Op::Delete(20, Third), Answer::Begun);
    j.call("t 1", Answer::Moved);
    j.call("r 0", WITH_ALPHA);
    j.call("t 1", Answer::Moved);
    j.call("t 1", DELETED);
    j.call("t 0", FOUND);

    // a search reads a leaf that is to be changed, as long as it is not converted
    let mut reads = three_levels("a search reads what is held with α");
    reads.begin(0, Op::Delete(10, Third), Answer::Begun);
    for _ in 0..3 {
        reads.call("t 0", Answer::Moved);
    }
    reads.begin(1, Op::Search(10), Answer::Begun);
    reads.call("t 1", Answer::Moved);
    reads.call("r 0", WITH_ALPHA);
    reads.call("t 1", Answer::Moved);
    reads.call("r 5", WITH_ALPHA);
    reads.call("t 1", FOUND);

    vec![j, reads]
}

/// "A conversion wants a held page and comes before every other want on it."
fn wants() -> Vec<Case> {
    // it waits for the reader that is there, and for no other
    let mut comes = Case::from_e_with_room("a search comes while a conversion waits");
    comes.begin(1, Op::Search(10), Answer::Begun);
    comes.call("t 1", Answer::Moved);
    comes.begin(0, Op::Insert(25, 7, Third), Answer::Begun);
    comes.call("t 0", Answer::Moved);
    comes.call("t 0", Answer::Moved);
    comes.call("t 0", Answer::Waiting);
    comes.begin(2, Op::Search(20), Answer::Begun);
    comes.call("t 2", Answer::Waiting);
    comes.call("t 1", FOUND);
    comes.call("t 2", Answer::Waiting);
    comes.call("t 0", Answer::Moved);
    comes.call("t 2", Answer::Waiting);
    comes.call("t 0", Answer::Inserted);
    comes.call("t 2", Answer::Moved);
    comes.call("t 2", FOUND);

    // a search rests on the leaf that is converted last: a Next does
    let mut rests = Case::from_e("a reader rests on a page that is converted");
    rests.begin(1, Op::Next(15), Answer::Begun);
    rests.call("t 1", Answer::Moved);
    rests.call("t 1", Answer::Moved);
    rests.begin(0, THIRD, Answer::Begun);
    rests.call("t 0", Answer::Moved);
    rests.call("t 0", Answer::Moved);
    rests.call("r 1", WITH_ALPHA);
    rests.call("t 0", Answer::Waiting);
    rests.call("t 1", Answer::Next(20, 7));
    rests.call("t 0", Answer::Inserted);

    vec![comes, rests, older()]
}

/// Wants that are older than the conversion, one with ρ and one with ξ: it does not wait for them, and they wait for it.
fn older() -> Case {
    let mut case = Case::from_e_with_room("older wants wait for a conversion");
    case.begin(0, Op::Insert(25, 7, Third), Answer::Begun);
    case.call("t 0", Answer::Moved);
    case.begin(1, Op::Search(20), Answer::Begun);
    case.begin(2, Op::Insert(5, 7, First), Answer::Begun);
    case.call("t 0", Answer::Moved);
    case.call("t 1", Answer::Waiting);
    case.call("t 2", Answer::Waiting);
    case.call("t 0", Answer::Moved);
    case.call("t 0", Answer::Inserted);
    case.call("t 1", Answer::Moved);
    case.call("t 2", Answer::Waiting);
    case
}

/// "ρ goes with all but ξ; updater's ρ with both ρ only; α with ρ only; ξ with nothing": on page 0 of E, held and then wanted.
fn pairs() -> Vec<Case> {
    let ops = [
        Op::Search(20),
        Op::Insert(25, 7, Second),
        Op::Insert(25, 7, Third),
        Op::Insert(25, 7, First),
    ];
    let mut cases = Vec::new();
    for (held, row) in ops.into_iter().zip(["+++.", "++..", "+...", "...."]) {
        for (wanted, cell) in ops.into_iter().zip(row.chars()) {
            let mut case = Case::from_e("a pair of kinds of lock");
            case.begin(0, held, Answer::Begun);
            case.call("t 0", Answer::Moved);
            case.begin(1, wanted, Answer::Begun);
            let answer = match cell {
                '+' => Answer::Moved,
                _ => Answer::Waiting,
            };
            case.call("t 1", answer);
            cases.push(case);
        }
    }
    cases.push(held());
    cases.push(turns());
    cases
}

/// "wants a held page only as such a conversion from α": the kind of page 1, which slot 0 holds and wants, and then that of the want.
fn held() -> Case {
    let mut case = Case::from_e("a want of a held page");
    case.begin(0, THIRD, Answer::Begun);
    case.call("t 0", Answer::Moved);
    case.call("t 0", Answer::Moved);
    let (path, lock) = (at(row::PATH, 0), at(row::LOCK, 0));
    for (number, answer) in [(2, Answer::BadState), (1, Answer::BadState), (4, ALPHA)] {
        case.lines.push(format!("s {path} {}", 1 + HALF * number));
        case.call("r 1", answer);
    }
    for (number, answer) in [(4, Answer::BadState), (1, Answer::BadState), (2, ALPHA)] {
        case.lines.push(format!("s {lock} {number}"));
        case.call("r 1", answer);
    }
    // another page, which it does not hold, is wanted with α alone
    case.lines.push(format!("s {} 2", at(row::WANT, 0)));
    case.call("r 1", Answer::BadState);
    case.lines.push(format!("s {lock} 4"));
    case.call("r 1", ALPHA);
    case.call("t 0", Answer::Damaged);
    case
}

/// Whose turn it is goes by the kinds of all pages held: the leaf before page 0 is Damaged.
fn turns() -> Case {
    let mut case = Case::from_e_with_room("a conversion out of turn");
    case.begin(0, Op::Insert(25, 7, Third), Answer::Begun);
    case.call("t 0", Answer::Moved);
    case.call("t 0", Answer::Moved);
    let want = at(row::WANT, 0);
    case.lines.push(format!("s {want} 2"));
    case.call("t 0", Answer::Damaged);
    case.lines.push(format!("s {want} 0"));
    case.call("t 0", Answer::Moved);
    case.call("t 0", Answer::Inserted);
    case
}
