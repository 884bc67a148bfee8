//! The lots on the bench, A to L, and the shortcuts that would lose a lot.

mod common;

use common::pools::two_levels;
use common::Run;
use twin::Way::{First, Second, Third};
use twin::{begin, make, page_words, report, step, Answer, Op};

/// Runs operations one after the other in slot 0; gives each one's grants and last answer.
fn alone(run: &mut Run, ops: &[Op]) -> Vec<(u32, Answer)> {
    let mut heard = Vec::new();
    for &op in ops {
        assert_eq!(run.begin(0, op), Answer::Begun);
        let mut answer = Answer::Moved;
        while answer == Answer::Moved {
            answer = run.step(0);
            run.check();
        }
        heard.push((run.grants[0], answer));
    }
    heard
}

/// Case E: 10, 20 and 30 in three pages.
fn case_e() -> Run {
    two_levels()
}

#[test]
fn a_fresh() {
    assert_eq!(Run::new(1, 1).words, [1, 0, 0, 0, 0, 0, 0]);
}

#[test]
fn b_search_in_a() {
    let mut run = Run::new(1, 1);
    assert_eq!(alone(&mut run, &[Op::Search(5)]), [(1, Answer::NotFound)]);
}

#[test]
fn c_two_entries() {
    let mut run = Run::new(1, 1);
    alone(
        &mut run,
        &[Op::Insert(10, 7, First), Op::Insert(20, 7, First)],
    );
    assert_eq!(run.words, [1, 2, 10, 7, 20, 7, 0]);
}

#[test]
fn d_no_room() {
    let mut run = Run::new(1, 2);
    alone(
        &mut run,
        &[Op::Insert(10, 7, First), Op::Insert(20, 7, First)],
    );
    assert_eq!(
        alone(&mut run, &[Op::Insert(30, 7, First)]),
        [(1, Answer::NoRoom)]
    );
    assert_eq!(run.words[..7], [1, 2, 10, 7, 20, 7, 0]);
}

#[test]
fn e_root_split() {
    let words = [
        [2, 1, 1, 20, 2, 0, 0],
        [1, 1, 10, 7, 0, 0, 0],
        [1, 2, 20, 7, 30, 7, 0],
    ];
    assert_eq!(case_e().words, words.concat());
}

#[test]
fn f_equal_key_goes_right() {
    let mut run = case_e();
    run.begin(0, Op::Search(20));
    assert_eq!(run.step(0), Answer::Moved);
    assert_eq!(run.state.slots[0].want, 2);
    assert_eq!(run.step(0), Answer::Found(7));
}

#[test]
fn g_move() {
    let mut run = case_e();
    assert_eq!(
        alone(&mut run, &[Op::Delete(10, First)]),
        [(3, Answer::Deleted(7))]
    );
    let words = [
        [2, 1, 1, 30, 2, 0, 0],
        [1, 1, 20, 7, 0, 0, 0],
        [1, 1, 30, 7, 0, 0, 0],
    ];
    assert_eq!(run.words, words.concat());
}

#[test]
fn h_join_and_collapse() {
    let mut run = case_e();
    alone(&mut run, &[Op::Delete(10, First), Op::Delete(20, First)]);
    assert_eq!(run.words[..7], [1, 1, 30, 7, 0, 0, 0]);
    assert_eq!(run.words[7..], [0; 14]);
}

/// As 02 (iv) has it: "Case I becomes AlreadyThere 7", whatever information was to be entered.
#[test]
fn i_already_there() {
    for information in [7, 9] {
        let mut run = case_e();
        let words = run.words.clone();
        assert_eq!(
            alone(&mut run, &[Op::Insert(20, information, First)]),
            [(2, Answer::AlreadyThere(7))]
        );
        assert_eq!(run.words, words);
    }
}

#[test]
fn j_deletion_waits_for_search() {
    let mut run = case_e();
    run.begin(0, Op::Search(10));
    assert_eq!(run.step(0), Answer::Moved);
    run.begin(1, Op::Delete(20, First));
    assert_eq!(run.step(1), Answer::Waiting);
    assert_eq!(run.step(0), Answer::Found(7));
    assert_eq!(run.step(1), Answer::Moved);
}

/// As 02 (iii) corrects it: "Case K becomes NotFound in an empty pool."
#[test]
fn k_a_search_passes_a_search() {
    let mut run = Run::new(1, 1);
    run.begin(0, Op::Search(5));
    run.begin(1, Op::Search(5));
    assert_eq!(run.step(1), Answer::NotFound);
}

/// "a want waits only for held locks and older wants that clash with it": of each two operations, who waits behind whom.
#[test]
fn older_wants_that_clash() {
    let ops = [
        Op::Search(5),
        Op::Next(5),
        // these want page 0 with ρ, and what follows with ξ
        Op::Insert(5, 7, Second),
        Op::Delete(5, Second),
        Op::Regrade(5, 7, Second),
        Op::Insert(5, 7, First),
        Op::Delete(5, First),
        Op::Regrade(5, 7, First),
        // these want it with α, which goes with plain ρ
        Op::Insert(5, 7, Third),
        Op::Delete(5, Third),
        Op::Regrade(5, 7, Third),
    ];
    for (i, older) in ops.into_iter().enumerate() {
        for (j, younger) in ops.into_iter().enumerate() {
            let mut run = Run::new(1, 1);
            run.begin(0, older);
            run.begin(1, younger);
            let both_rho = i < 5 && j < 5;
            let beside_alpha = (i < 2 && j > 7) || (i > 7 && j < 2);
            let goes = both_rho || beside_alpha;
            assert_eq!(run.step(1) != Answer::Waiting, goes, "{i} {j}");
            // nobody is older than the first; but a conversion comes before it, and here an insertion has got so far
            let converts = goes && j == 8;
            assert_eq!(run.step(0) == Answer::Waiting, converts, "{i} {j}");
        }
    }
}

/// Between two searches an insertion waits; the younger search waits behind it, and not behind the older search.
#[test]
fn a_search_does_not_pass_an_insertion() {
    let mut run = Run::new(1, 1);
    run.begin(0, Op::Search(5));
    run.begin(1, Op::Insert(5, 7, First));
    run.begin(2, Op::Search(5));
    assert_eq!(run.step(2), Answer::Waiting);
    assert_eq!(run.step(1), Answer::Waiting);
    assert_eq!(run.step(0), Answer::NotFound);
    assert_eq!(run.step(2), Answer::Waiting);
    assert_eq!(run.step(1), Answer::Inserted);
    assert_eq!(run.step(2), Answer::Found(7));
}

#[test]
fn l_limits() {
    let mut run = Run::new(1, 1);
    assert_eq!(run.begin(15, Op::Search(1)), Answer::Begun);
    assert_eq!(run.begin(16, Op::Search(1)), Answer::BadSlot);
    let made = |k: u32, n: u32| make(k, n, &mut vec![0; n as usize * page_words(k)]);
    assert_eq!(made(16, 1).0, Answer::Made);
    assert_eq!(made(1, 1024).0, Answer::Made);
    for (k, n) in [(0, 1), (17, 1), (1, 0), (1, 1025)] {
        let (answer, empty) = made(k, n);
        assert_eq!((answer, empty.k, empty.n), (Answer::BadPool, 0, 0));
        assert_eq!(begin(&empty, 0, Op::Search(1)).0, Answer::BadState);
        assert_eq!(step(&empty, &mut [], 99).0, Answer::BadState);
        assert_eq!(report(&empty, 0), Answer::BadState);
    }
}

#[test]
fn the_father_is_kept_until_the_child_is_granted() {
    let mut run = case_e();
    run.begin(0, Op::Search(10));
    run.step(0);
    assert_eq!(report(&run.state, 0), Answer::Reported(1, 1, 0));
    assert_eq!(report(&run.state, 1), Answer::Reported(0, 0, 16));
    assert_eq!(report(&run.state, 3), Answer::BadPage);
}
