//! Regrading: what it answers and writes, what it holds at each step, and who waits for whom; and when the pages are sound for
//! a step of it.

mod common;

use common::pools::{entered, says, three_levels, two_levels, FIVE, TWO, UNSOUND_ON_TWO};
use common::Run;
use twin::Way::{First, Second, Third};
use twin::{report, Answer, Op, Slot};

/// A regrading alone in slot 0: the page that it holds and the one that it wants after each grant but the last, and how it ends.
fn judge(run: &mut Run, key: u32, information: u32, stands: &[(u32, u32)], answer: Answer) {
    let op = Op::Regrade(key, information, First);
    assert_eq!(run.begin(0, op), Answer::Begun);
    for &(held, want) in stands {
        assert_eq!(run.step(0), Answer::Moved, "regrade {key}");
        run.check();
        assert_eq!(run.state.slots[0], Slot::open(op, want, &[held], &[]));
        // "It takes ξ-locks"
        assert_eq!(report(&run.state, held), Answer::Reported(2, 1, 0));
    }
    assert_eq!(run.step(0), answer, "regrade {key}");
    run.check();
    assert_eq!(run.state.slots[0], Slot::CLOSED);
}

/// "puts new information under a key that is there and answers Regraded with the old information"
#[test]
fn in_e() {
    let mut run = two_levels();
    judge(&mut run, 20, 9, &[(0, 2)], Answer::Regraded(7));
    let regraded = [
        [2, 1, 1, 20, 2, 0, 0],
        [1, 1, 10, 7, 0, 0, 0],
        [1, 2, 20, 9, 30, 7, 0],
    ];
    assert_eq!(run.words, regraded.concat());
    judge(&mut run, 20, 0, &[(0, 2)], Answer::Regraded(9));
    judge(&mut run, 30, u32::MAX, &[(0, 2)], Answer::Regraded(7));
    judge(&mut run, 10, 1, &[(0, 1)], Answer::Regraded(7));
    let all = [
        [2, 1, 1, 20, 2, 0, 0],
        [1, 1, 10, 1, 0, 0, 0],
        [1, 2, 20, 0, 30, u32::MAX, 0],
    ];
    assert_eq!(run.words, all.concat());
}

/// "or NoSuchKey"
#[test]
fn a_missing_key() {
    let mut run = two_levels();
    let words = run.words.clone();
    for (key, leaf) in [(1, 1), (9, 1), (19, 1), (21, 2), (u32::MAX, 2)] {
        judge(&mut run, key, 9, &[(0, leaf)], Answer::NoSuchKey);
        assert_eq!(run.words, words);
    }
}

#[test]
fn in_a_root_leaf() {
    let mut run = Run::new(1, 1);
    judge(&mut run, 10, 9, &[], Answer::NoSuchKey);
    let mut run = entered(1, &[10, 20]);
    judge(&mut run, 10, 9, &[], Answer::Regraded(7));
    assert_eq!(run.words, [1, 2, 10, 9, 20, 7, 0]);
    // no page is free, and none is needed
    judge(&mut run, 20, 8, &[], Answer::Regraded(7));
    assert_eq!(run.words, [1, 2, 10, 9, 20, 8, 0]);
    judge(&mut run, 30, 9, &[], Answer::NoSuchKey);
}

#[test]
fn the_same_information_again() {
    let mut run = two_levels();
    let words = run.words.clone();
    judge(&mut run, 20, 7, &[(0, 2)], Answer::Regraded(7));
    assert_eq!(run.words, words);
}

/// "every page is safe for it, so it holds at most 1": also pages that an insertion or a deletion keeps the father of.
#[test]
fn it_gives_up_its_father() {
    let mut run = three_levels();
    judge(&mut run, 20, 9, &[(0, 5), (5, 2)], Answer::Regraded(7));
    judge(&mut run, 50, 9, &[(0, 6), (6, 4)], Answer::Regraded(7));
    judge(&mut run, 25, 9, &[(0, 5), (5, 2)], Answer::NoSuchKey);
    run.begin(0, Op::Regrade(10, 9, First));
    run.step(0);
    run.step(0);
    assert_eq!(report(&run.state, 0), Answer::Reported(0, 0, 16));
    assert_eq!(report(&run.state, 1), Answer::Reported(0, 0, 16));
    assert_eq!(run.step(0), Answer::Regraded(7));
}

/// Rising keys give the tallest tree: a regrading takes one grant a level.
#[test]
fn over_ten_levels() {
    let mut run = Run::new(1, 1024);
    run.rise(1);
    assert_eq!(run.words[0], 10);
    for (key, answer) in [(1, Answer::Regraded(7)), (u32::MAX, Answer::NoSuchKey)] {
        run.begin(0, Op::Regrade(key, 9, First));
        run.finish();
        assert_eq!((run.grants[0], run.list.get(&1)), (10, Some(&9)));
        assert!(run.tally.contains_key(answer.name()));
    }
}

#[test]
fn it_waits_for_a_search_above_it_and_below() {
    let mut run = three_levels();
    run.begin(0, Op::Search(20));
    assert_eq!(run.step(0), Answer::Moved);
    run.begin(1, Op::Regrade(20, 9, First));
    // the search holds page 0, and then page 5
    assert_eq!(run.step(1), Answer::Waiting);
    assert_eq!(run.step(0), Answer::Moved);
    assert_eq!(run.step(1), Answer::Moved);
    assert_eq!(run.step(1), Answer::Waiting);
    assert_eq!(run.step(0), Answer::Found(7));
    assert_eq!(run.step(1), Answer::Moved);
    assert_eq!(run.step(1), Answer::Regraded(7));
}

/// A search and a regrading of lot 20, one begun when the other has taken so many steps.
fn meet(first: Op, second: Op, steps: u32) {
    let mut run = three_levels();
    run.begin(0, first);
    (0..steps).for_each(|_| assert_eq!(run.step(0), Answer::Moved));
    run.begin(1, second);
    run.finish();
    assert_eq!((run.tally["Found"], run.tally["Regraded"]), (1, 1));
    assert_eq!(run.list[&20], 9);
}

/// "During a downgrade the lot is for a moment nowhere": a search finds it with the old information or the new, at whatever
/// point it comes and by whatever way the regrading goes.
#[test]
fn a_search_never_misses_the_lot() {
    let search = Op::Search(20);
    for regrade in [First, Second, Third].map(|way| Op::Regrade(20, 9, way)) {
        for steps in 0..3 {
            meet(search, regrade, steps);
            meet(regrade, search, steps);
        }
    }
}

#[test]
fn a_search_behind_it_finds_the_new_information() {
    let mut run = three_levels();
    run.begin(0, Op::Regrade(20, 9, First));
    run.begin(1, Op::Search(20));
    // it holds page 0, and then page 5
    assert_eq!(run.step(0), Answer::Moved);
    assert_eq!(run.step(1), Answer::Waiting);
    assert_eq!(run.step(0), Answer::Moved);
    assert_eq!(run.step(1), Answer::Moved);
    assert_eq!(run.step(1), Answer::Waiting);
    assert_eq!(run.step(0), Answer::Regraded(7));
    assert_eq!(run.step(1), Answer::Moved);
    assert_eq!(run.step(1), Answer::Found(9));
}

/// A `Next` rests on its leaf, and keeps what is above it.
#[test]
fn it_waits_for_a_next_that_rests_on_its_leaf() {
    let mut run = two_levels();
    run.begin(0, Op::Next(15));
    run.step(0);
    run.step(0);
    assert_eq!(report(&run.state, 1), Answer::Reported(1, 1, 0));
    run.begin(1, Op::Regrade(10, 9, First));
    assert_eq!(run.step(1), Answer::Waiting);
    assert_eq!(run.step(0), Answer::Next(20, 7));
    assert_eq!(run.step(1), Answer::Moved);
    assert_eq!(run.step(1), Answer::Regraded(7));
    // page 0 is given up, and page 5 is not
    let mut run = three_levels();
    run.begin(0, Op::Next(15));
    (0..3).for_each(|_| assert_eq!(run.step(0), Answer::Moved));
    run.begin(1, Op::Regrade(20, 9, First));
    assert_eq!(run.step(1), Answer::Moved);
    assert_eq!(run.step(1), Answer::Waiting);
    // the lot that it answers has the old information
    assert_eq!(run.step(0), Answer::Next(20, 7));
    assert_eq!(run.step(1), Answer::Moved);
    assert_eq!(run.step(1), Answer::Regraded(7));
}

#[test]
fn two_of_one_lot_go_one_after_the_other() {
    let mut run = two_levels();
    run.begin(0, Op::Regrade(20, 8, First));
    run.begin(1, Op::Regrade(20, 9, First));
    assert_eq!(run.step(1), Answer::Waiting);
    assert_eq!(run.step(0), Answer::Moved);
    assert_eq!(run.step(1), Answer::Waiting);
    assert_eq!(run.step(0), Answer::Regraded(7));
    assert_eq!(run.step(1), Answer::Moved);
    assert_eq!(run.step(1), Answer::Regraded(8));
}

#[test]
fn the_other_operations_find_the_new_information() {
    let mut run = two_levels();
    judge(&mut run, 20, 9, &[(0, 2)], Answer::Regraded(7));
    for (op, name) in [
        (Op::Search(20), Answer::Found(9)),
        (Op::Next(11), Answer::Next(20, 9)),
        (Op::Insert(20, 5, First), Answer::AlreadyThere(9)),
        (Op::Delete(20, First), Answer::Deleted(9)),
        (Op::Regrade(20, 5, First), Answer::NoSuchKey),
    ] {
        run.begin(3, op);
        let mut answer = Answer::Moved;
        while answer == Answer::Moved {
            answer = run.step(3);
            run.check();
        }
        assert_eq!(answer, name);
    }
}

/// What a step says in three levels, with a word of the pool changed, where slot 0 regrades 20, holds these and wants this.
fn regrading(path: &[u32], beside: &[u32], want: u32, spoiled: &[(usize, u32)]) -> Answer {
    let op = Op::Regrade(20, 9, First);
    says(Slot::open(op, want, path, beside), spoiled)
}

#[test]
fn what_it_may_hold_and_want() {
    assert_eq!(regrading(&[], &[], 0, &[]), Answer::Moved);
    assert_eq!(regrading(&[0], &[], 5, &[]), Answer::Moved);
    assert_eq!(regrading(&[5], &[], 2, &[]), Answer::Regraded(7));
    // nothing held, and another page wanted; a page that the held one does not lead to
    assert_eq!(regrading(&[], &[], 5, &[]), Answer::Damaged);
    assert_eq!(regrading(&[0], &[], 6, &[]), Answer::Damaged);
    assert_eq!(regrading(&[5], &[], 1, &[]), Answer::Damaged);
    // it never goes on from its leaf
    for want in [0, 1, 5, 6] {
        assert_eq!(regrading(&[2], &[], want, &[]), Answer::Damaged);
    }
    // more than one page, or one beside its path
    assert_eq!(regrading(&[0, 5], &[], 2, &[]), Answer::BadState);
    assert_eq!(regrading(&[5], &[1], 2, &[]), Answer::BadState);
}

/// Each of its two pages is sound, and the levels fall by one.
#[test]
fn damaged_pages() {
    for (at, word) in UNSOUND_ON_TWO {
        let answer = regrading(&[5], &[], 2, &[(at, word)]);
        assert_eq!(answer, Answer::Damaged, "{at} {word}");
    }
    // what is held by nobody is not looked at
    assert_eq!(regrading(&[5], &[], 2, &[(0, 9)]), Answer::Regraded(7));
    assert_eq!(regrading(&[5], &[], 2, &[(7, 9)]), Answer::Regraded(7));
    // from page 5 it would want the page that it then holds
    assert_eq!(regrading(&[0], &[], 5, &[(FIVE + 4, 5)]), Answer::Damaged);
    // the key is gone from its leaf
    assert_eq!(regrading(&[5], &[], 2, &[(TWO + 2, 21)]), Answer::NoSuchKey);
}
