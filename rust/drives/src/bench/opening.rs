//! Opening a pool that somebody hands in, as 02 (vii) has it.

use twin::Way::First;
use twin::{Answer, Op};

use super::{Case, DELETED, E, FOUND, INFORMATION};

/// Three levels: 0 above 5 and 6, 5 above the leaves 1 and 2, 6 above the leaves 3 and 4; page 7 is free.
const THREE: [[u32; 7]; 8] = [
    [3, 1, 5, 30, 6, 0, 0],
    [1, 1, 10, 7, 0, 0, 0],
    [1, 1, 20, 7, 0, 0, 0],
    [1, 1, 30, 7, 0, 0, 0],
    [1, 2, 40, 7, 50, 7, 0],
    [2, 1, 1, 20, 2, 0, 0],
    [2, 1, 3, 40, 4, 0, 0],
    [0; 7],
];

pub(super) fn cases() -> Vec<Case> {
    [accepted(), pages(), trees(), states()]
        .into_iter()
        .flatten()
        .collect()
}

/// Words that are opened, k = 1; and the words behind it, which are as they were.
pub(super) fn opened(name: &'static str, pages: &[[u32; 7]], answer: Answer) -> Case {
    let mut case = Case::handed(name, pages);
    case.call(&format!("o 1 {}", pages.len()), answer);
    case.words(pages);
    case
}

/// The same with some words put otherwise: each a page, a place in it, and the word.
pub(super) fn spoiled(
    name: &'static str,
    pages: &[[u32; 7]],
    words: &[(usize, usize, u32)],
    answer: Answer,
) -> Case {
    let mut pages = pages.to_vec();
    for &(page, at, word) in words {
        pages[page][at] = word;
    }
    opened(name, &pages, answer)
}

/// "Acceptance gives a state with all slots closed", and the run goes on.
fn accepted() -> Vec<Case> {
    let mut e = opened("E is opened", &E, Answer::Opened);
    e.search(20, 2, FOUND);
    e.insert(15, 2, Answer::Inserted);
    e.insert(40, 2, Answer::NoRoom);
    e.delete(30, 2, DELETED);
    let left = [[1, 2, 10, 7, 15, 7, 0], [1, 1, 20, 7, 0, 0, 0]];
    e.words(&[E[0], left[0], left[1]]);

    let mut fresh = Case::fresh("a fresh pool is opened", 3);
    fresh.call("o 1 3", Answer::Opened);
    fresh.insert(10, 1, Answer::Inserted);

    let mut three = opened("three levels are opened", &THREE, Answer::Opened);
    three.search(50, 3, FOUND);

    // as deletions leave it: 20 is in no leaf
    let mut loose = Case::from_e("a loose reference key");
    loose.delete(20, 2, DELETED);
    loose.call("o 1 3", Answer::Opened);
    loose.search(30, 2, FOUND);

    let empty = [[1, 0, 0, 0, 0, 0, 0]];
    let empty = opened("an empty leaf at page 0", &empty, Answer::Opened);
    let between = "a reference key between two leaves";
    let between = spoiled(between, &E, &[(0, 3, 11)], Answer::Opened);
    vec![e, fresh, three, loose, empty, between]
}

/// "gives the lowest-numbered page that is not sound by itself".
fn pages() -> Vec<Case> {
    let named = Answer::BadPageInPool;
    vec![
        opened("page 0 all zeros", &[[0; 7], E[1], E[2]], named(0)),
        spoiled("a level of 11", &E, &[(2, 0, 11)], named(2)),
        spoiled("a level of 0 and more", &E, &[(1, 0, 0)], named(1)),
        spoiled(
            "too few in a leaf",
            &E,
            &[(1, 1, 0), (1, 2, 0), (1, 3, 0)],
            named(1),
        ),
        spoiled("too many", &E, &[(2, 1, 3)], named(2)),
        spoiled("keys that do not rise", &E, &[(2, 4, 20)], named(2)),
        spoiled("a pointer to page 0", &E, &[(0, 2, 0)], named(0)),
        spoiled("a pointer to page N", &E, &[(0, 4, 3)], named(0)),
        spoiled("one pointer twice in a page", &E, &[(0, 4, 1)], named(0)),
        spoiled("an unused word", &E, &[(1, 4, 1)], named(1)),
        spoiled("a free page with one word", &THREE, &[(7, 6, 1)], named(7)),
        // page 5 is met before page 1
        spoiled(
            "the lowest of two",
            &THREE,
            &[(5, 6, 1), (1, 6, 1)],
            named(1),
        ),
        spoiled(
            "a page before the tree",
            &THREE,
            &[(0, 0, 4), (7, 3, 1)],
            named(7),
        ),
    ]
}

/// "if all are, it says BadTree".
fn trees() -> Vec<Case> {
    // a leaf more on page 7
    let leaf = [(7, 0, 1), (7, 1, 1), (7, 2, 60), (7, 3, 7)];
    // page 2 hangs under page 6 too, where page 3 did, which is free now
    let twice = [(6, 2, 2), (3, 0, 0), (3, 1, 0), (3, 2, 0), (3, 3, 0)];
    [
        ("page 0 too high", &THREE[..], &[(0, 0, 4)][..]),
        ("a leaf where a higher page should be", &THREE, &[(0, 2, 1)]),
        ("a key below its range", &E, &[(2, 2, 19)]),
        ("a key at the end of its range", &E, &[(1, 2, 20)]),
        (
            "a key beyond what is above its father",
            &THREE,
            &[(2, 2, 30)],
        ),
        (
            "a key below what is above its father",
            &THREE,
            &[(3, 2, 29)],
        ),
        ("a page in two places", &THREE, &twice),
        ("a page not reached from page 0", &THREE, &leaf),
        ("a pointer to a free page", &THREE, &[(6, 4, 7)]),
    ]
    .map(|(name, pages, words)| spoiled(name, pages, words, Answer::BadTree))
    .into()
}

/// "returns the empty state", and "a later opening, accepted or refused, ends the run".
fn states() -> Vec<Case> {
    let begun = |name| {
        let mut case = Case::from_e(name);
        case.begin(3, Op::Insert(40, INFORMATION, First), Answer::Begun);
        case.call("t 3", Answer::Moved);
        case
    };
    let mut accepted = begun("an opening ends the run");
    accepted.call("o 1 3", Answer::Opened);
    accepted.call("t 3", Answer::SlotIdle);
    accepted.call("r 0", Answer::Reported(0, 0, 16));
    accepted.words(&E);

    let mut cases = vec![accepted];
    for (name, line, spoil, refusal) in [
        ("too few words", "o 1 4", "", Answer::BadPool),
        ("too many words", "o 1 2", "", Answer::BadPool),
        ("k out of range", "o 0 3", "", Answer::BadPool),
        ("n out of range", "o 1 1025", "", Answer::BadPool),
        (
            "a bad page ends the run",
            "o 1 3",
            "w 20 1",
            Answer::BadPageInPool(2),
        ),
        ("no tree ends the run", "o 1 3", "w 9 20", Answer::BadTree),
    ] {
        let mut case = begun(name);
        case.line(spoil);
        case.call(line, refusal);
        case.call("r 0", Answer::BadState);
        case.begin(0, Op::Search(10), Answer::BadState);
        case.call("t 3", Answer::BadState);
        cases.push(case);
    }
    cases
}
