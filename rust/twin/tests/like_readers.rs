//! Updates that go down like readers, by the second way: what they answer and write, what is held after each step, when they begin again,
//! and who waits for whom; and when the state and the pages are sound for a step of them.

mod common;

use common::pools::{entered, says, three_levels, two_levels, FIVE, UNSOUND_ON_TWO};
use common::Run;
use twin::Way::{First, Second};
use twin::{is_sound, report, Answer, Lock, Op, Slot};

/// What a report says of a page: its kind of lock, how many hold it, and who.
type Report = (u32, u32, u32);

/// Nobody holds it, or slot 0 alone does: with ρ, with ξ, or with updater's ρ.
const NONE: Report = (0, 0, 16);
const RHO: Report = (1, 1, 0);
const XI: Report = (2, 1, 0);
const UPDATER: Report = (3, 1, 0);

/// The report of every page.
fn reports(run: &Run) -> Vec<Report> {
    let of = |page| match report(&run.state, page) {
        Answer::Reported(kind, holders, lowest) => (kind, holders, lowest),
        answer => panic!("page {page}: {answer:?}"),
    };
    (0..run.n).map(of).collect()
}

/// The slot when its operation has just begun.
fn begun(op: Op, lock: Lock) -> Slot {
    Slot::open(op, 0, &[], &[]).wanting(lock)
}

/// The slot when it holds one page and wants one more.
fn stands(op: Op, held: u32, want: u32, lock: Lock) -> Slot {
    Slot::open(op, want, &[held], &[]).wanting(lock)
}

/// An operation alone in slot 0: what each step is answered, the slot then, and the report of every page; nobody holds any before the
/// first.
fn judge(run: &mut Run, op: Op, steps: &[(Answer, Slot, &[Report])]) {
    let nobody = vec![NONE; run.n as usize];
    assert_eq!(run.begin(0, op), Answer::Begun);
    assert_eq!(run.state.slots[0], begun(op, Lock::UpdaterRho));
    assert_eq!(reports(run), nobody);
    for (at, &(answer, slot, held)) in steps.iter().enumerate() {
        assert_eq!(run.step(0), answer, "{op:?}, step {at}");
        run.check();
        assert_eq!(run.state.slots[0], slot, "{op:?}, step {at}");
        assert_eq!(reports(run), held, "{op:?}, step {at}");
    }
    assert_eq!(reports(run), nobody);
}

/// One that ends at its leaf, in E: page 0 is held meanwhile, with updater's ρ.
fn judge_in_e(run: &mut Run, op: Op, leaf: u32, answer: Answer) {
    let above = stands(op, 0, leaf, Lock::Xi);
    let steps = [
        (Answer::Moved, above, &[UPDATER, NONE, NONE][..]),
        (answer, Slot::CLOSED, &[NONE, NONE, NONE]),
    ];
    judge(run, op, &steps);
}

/// The pages of E.
const E: [[u32; 7]; 3] = [
    [2, 1, 1, 20, 2, 0, 0],
    [1, 1, 10, 7, 0, 0, 0],
    [1, 2, 20, 7, 30, 7, 0],
];

/// "otherwise all locks are given up and the operation begins again by the first way"
#[test]
fn a_full_leaf_begins_again() {
    for n in [3, 4] {
        let mut run = entered(n, &[10, 20, 30]);
        let (op, first) = (Op::Insert(25, 7, Second), Op::Insert(25, 7, First));
        let (answer, pages) = match n {
            3 => (Answer::NoRoom, E.to_vec()),
            _ => (
                Answer::Inserted,
                vec![
                    [2, 2, 1, 20, 2, 25, 3],
                    [1, 1, 10, 7, 0, 0, 0],
                    [1, 1, 20, 7, 0, 0, 0],
                    [1, 2, 25, 7, 30, 7, 0],
                ],
            ),
        };
        let all = |top: Report| [vec![top], vec![NONE; n as usize - 1]].concat();
        let steps = [
            (Answer::Moved, stands(op, 0, 2, Lock::Xi), &all(UPDATER)[..]),
            (Answer::Moved, begun(first, Lock::Xi), &all(NONE)),
            (Answer::Moved, stands(first, 0, 2, Lock::Xi), &all(XI)),
            (answer, Slot::CLOSED, &all(NONE)),
        ];
        judge(&mut run, op, &steps);
        assert_eq!(run.words, pages.concat());
    }
}

/// "A key already there or missing is answered at once": also in a leaf that is not safe.
#[test]
fn a_key_that_is_there() {
    for (key, leaf) in [(20, 2), (30, 2), (10, 1)] {
        let mut run = two_levels();
        let op = Op::Insert(key, 9, Second);
        judge_in_e(&mut run, op, leaf, Answer::AlreadyThere(7));
        assert_eq!(run.words, E.concat());
    }
}

#[test]
fn a_key_that_is_missing() {
    for (key, leaf) in [(99, 2), (11, 1), (1, 1)] {
        let mut run = two_levels();
        for op in [Op::Delete(key, Second), Op::Regrade(key, 9, Second)] {
            judge_in_e(&mut run, op, leaf, Answer::NoSuchKey);
        }
        assert_eq!(run.words, E.concat());
    }
}

/// "a safe leaf is changed"
#[test]
fn a_leaf_with_room() {
    let mut run = two_levels();
    judge_in_e(&mut run, Op::Insert(5, 7, Second), 1, Answer::Inserted);
    assert_eq!(run.words, [E[0], [1, 2, 5, 7, 10, 7, 0], E[2]].concat());
}

#[test]
fn a_leaf_that_is_not_short_then() {
    let mut run = two_levels();
    judge_in_e(&mut run, Op::Delete(20, Second), 2, Answer::Deleted(7));
    assert_eq!(run.words, [E[0], E[1], [1, 1, 30, 7, 0, 0, 0]].concat());
}

/// Case G by the second way: its three grants follow.
#[test]
fn a_leaf_that_would_be_short_begins_again() {
    let mut run = two_levels();
    let (op, first) = (Op::Delete(10, Second), Op::Delete(10, First));
    let at_leaf = Slot::open(first, 2, &[0, 1], &[]);
    let steps = [
        (
            Answer::Moved,
            stands(op, 0, 1, Lock::Xi),
            &[UPDATER, NONE, NONE][..],
        ),
        (Answer::Moved, begun(first, Lock::Xi), &[NONE, NONE, NONE]),
        (
            Answer::Moved,
            stands(first, 0, 1, Lock::Xi),
            &[XI, NONE, NONE],
        ),
        (Answer::Moved, at_leaf, &[XI, XI, NONE]),
        (Answer::Deleted(7), Slot::CLOSED, &[NONE, NONE, NONE]),
    ];
    judge(&mut run, op, &steps);
    let words = [
        [2, 1, 1, 30, 2, 0, 0],
        [1, 1, 20, 7, 0, 0, 0],
        [1, 1, 30, 7, 0, 0, 0],
    ];
    assert_eq!(run.words, words.concat());
}

/// Every leaf is safe for a regrading, whether full or with k entries.
#[test]
fn a_regrading_never_begins_again_below_page_0() {
    for (key, leaf, page) in [
        (20, 2, [1, 2, 20, 9, 30, 7, 0]),
        (30, 2, [1, 2, 20, 7, 30, 9, 0]),
        (10, 1, [1, 1, 10, 9, 0, 0, 0]),
    ] {
        let mut run = two_levels();
        let op = Op::Regrade(key, 9, Second);
        judge_in_e(&mut run, op, leaf, Answer::Regraded(7));
        let mut pages = E;
        pages[leaf as usize] = page;
        assert_eq!(run.words, pages.concat());
    }
}

/// "If page 0 is a leaf, it begins again in any case": whatever the key, and one grant more ends it.
#[test]
fn a_root_leaf_begins_again() {
    for (keys, op, answer) in [
        (&[][..], Op::Insert(10, 7, Second), Answer::Inserted),
        (&[10], Op::Insert(20, 7, Second), Answer::Inserted),
        (&[10], Op::Insert(10, 9, Second), Answer::AlreadyThere(7)),
        (&[10, 20], Op::Insert(30, 7, Second), Answer::NoRoom),
        (&[10, 20], Op::Delete(20, Second), Answer::Deleted(7)),
        (&[10], Op::Delete(10, Second), Answer::Deleted(7)),
        (&[10], Op::Delete(20, Second), Answer::NoSuchKey),
        (&[10], Op::Regrade(10, 9, Second), Answer::Regraded(7)),
        (&[10], Op::Regrade(20, 9, Second), Answer::NoSuchKey),
    ] {
        let mut run = entered(1, keys);
        let steps = [
            (Answer::Moved, begun(op.by(First), Lock::Xi), &[NONE][..]),
            (answer, Slot::CLOSED, &[NONE]),
        ];
        judge(&mut run, op, &steps);
    }
}

/// Over three levels page 0 is given up, and ξ is wanted on the leaf alone.
#[test]
fn it_gives_up_its_father() {
    let mut run = three_levels();
    for (op, upper, leaf, answer) in [
        (Op::Insert(15, 7, Second), 5, 1, Answer::Inserted),
        (Op::Delete(15, Second), 5, 1, Answer::Deleted(7)),
        (Op::Regrade(50, 9, Second), 6, 4, Answer::Regraded(7)),
    ] {
        let held = |page: u32| {
            let mut reports = [NONE; 8];
            reports[page as usize] = UPDATER;
            reports
        };
        let steps = [
            (
                Answer::Moved,
                stands(op, 0, upper, Lock::UpdaterRho),
                &held(0)[..],
            ),
            (
                Answer::Moved,
                stands(op, upper, leaf, Lock::Xi),
                &held(upper),
            ),
            (answer, Slot::CLOSED, &[NONE; 8]),
        ];
        judge(&mut run, op, &steps);
    }
}

/// "At most 10 + 19 grants": the first key of the tallest tree is deleted.
#[test]
fn over_ten_levels() {
    let mut run = Run::new(1, 1024);
    run.rise(1);
    assert_eq!(run.words[0], 10);
    run.begin(0, Op::Regrade(2, 9, Second));
    (1..10).for_each(|_| assert_eq!(run.step(0), Answer::Moved));
    assert_eq!(run.step(0), Answer::Regraded(7));
    run.begin(0, Op::Delete(1, Second));
    for grant in 1..29 {
        assert_eq!(run.step(0), Answer::Moved);
        let is_second = grant < 10;
        assert_eq!(
            run.state.slots[0].op,
            Some(Op::Delete(1, if is_second { Second } else { First }))
        );
    }
    assert_eq!(run.step(0), Answer::Deleted(7));
    run.check();
}

/// "updates that don't hold buyers out of the top page": whoever comes first.
#[test]
fn with_a_search_on_the_top_page() {
    for update in [0, 1] {
        let (insert, search) = (Op::Insert(5, 7, Second), Op::Search(10));
        let ops = if update == 0 {
            [insert, search]
        } else {
            [search, insert]
        };
        let mut run = two_levels();
        for (slot, op) in ops.into_iter().enumerate() {
            run.begin(slot, op);
            assert_eq!(run.step(slot), Answer::Moved);
        }
        assert_eq!(reports(&run), [(3, 2, 0), NONE, NONE]);
        // on the leaf they clash, and the older want goes first
        let expected = [Answer::Inserted, Answer::Found(7)];
        assert_eq!(run.step(1), Answer::Waiting);
        assert_eq!(run.step(0), expected[update]);
        assert_eq!(run.step(1), expected[1 - update]);
        run.check();
    }
}

/// "a lock report gives the first that is there of ξ, α, updater's ρ, ρ": not that of the lowest holder, who is told beside it.
#[test]
fn a_report_tells_the_strongest_kind() {
    let mut run = three_levels();
    let ops = [
        Op::Search(10),
        Op::Next(45),
        Op::Insert(45, 7, Second),
        Op::Search(50),
    ];
    for (slot, op) in ops.into_iter().enumerate() {
        run.begin(slot, op);
        assert_eq!(run.step(slot), Answer::Moved);
    }
    assert_eq!(reports(&run)[0], (3, 4, 0));
    // one after the other goes down
    for (slot, told) in [(0, (3, 3, 1)), (2, (1, 2, 1)), (3, (1, 1, 1))] {
        assert_eq!(run.step(slot), Answer::Moved);
        assert_eq!(reports(&run)[0], told);
    }
    assert_eq!(reports(&run)[6], (3, 2, 2));
}

/// Case J by the second way: the deletion does not wait.
#[test]
fn case_j_does_not_wait() {
    let mut run = two_levels();
    run.begin(0, Op::Search(10));
    assert_eq!(run.step(0), Answer::Moved);
    run.begin(1, Op::Delete(20, Second));
    assert_eq!(run.step(1), Answer::Moved);
    assert_eq!(run.step(1), Answer::Deleted(7));
    assert_eq!(run.step(0), Answer::Found(7));
}

/// It waits for who updates by the first way, and bars nobody but there.
#[test]
fn with_an_update_of_the_first_way() {
    let mut run = two_levels();
    run.begin(0, Op::Insert(25, 7, First));
    run.begin(1, Op::Insert(5, 7, Second));
    assert_eq!(run.step(1), Answer::Waiting);
    assert_eq!(run.step(0), Answer::Moved);
    assert_eq!(run.step(1), Answer::Waiting);
    assert_eq!(run.step(0), Answer::NoRoom);
    assert_eq!(run.step(1), Answer::Moved);
    // it holds page 0, with updater's ρ
    run.begin(0, Op::Insert(6, 7, First));
    assert_eq!(run.step(0), Answer::Waiting);
    assert_eq!(run.step(1), Answer::Inserted);
    assert_eq!(run.step(0), Answer::Moved);
}

#[test]
fn behind_a_next_that_rests_on_the_leaf() {
    let mut run = two_levels();
    run.begin(0, Op::Next(15));
    run.step(0);
    run.step(0);
    assert_eq!(reports(&run), [RHO, RHO, NONE]);
    run.begin(1, Op::Insert(5, 7, Second));
    assert_eq!(run.step(1), Answer::Moved);
    assert_eq!(reports(&run), [(3, 2, 0), RHO, NONE]);
    assert_eq!(run.step(1), Answer::Waiting);
    // the other leaf has an older want, with ρ
    run.begin(2, Op::Delete(20, Second));
    assert_eq!(run.step(2), Answer::Moved);
    assert_eq!(run.step(2), Answer::Waiting);
    assert_eq!(run.step(0), Answer::Next(20, 7));
    assert_eq!(run.step(1), Answer::Inserted);
    assert_eq!(run.step(2), Answer::Deleted(7));
}

/// A want of a leaf with ξ bars the younger ones that read there.
#[test]
fn before_a_next() {
    let mut run = two_levels();
    run.begin(1, Op::Delete(20, Second));
    run.step(1);
    run.begin(0, Op::Next(15));
    run.step(0);
    run.step(0);
    assert_eq!(run.step(0), Answer::Waiting);
    assert_eq!(run.step(1), Answer::Deleted(7));
    assert_eq!(run.step(0), Answer::Next(30, 7));
}

/// Both hold page 0 and want the leaf: the younger one waits, finds it full, and begins again.
#[test]
fn two_insertions_on_one_leaf() {
    let mut run = entered(4, &[10, 20, 30]);
    run.begin(0, Op::Insert(5, 7, Second));
    run.begin(1, Op::Insert(6, 7, Second));
    assert_eq!(run.step(0), Answer::Moved);
    assert_eq!(run.step(1), Answer::Moved);
    assert_eq!(reports(&run), [(3, 2, 0), NONE, NONE, NONE]);
    assert_eq!(run.step(1), Answer::Waiting);
    assert_eq!(run.step(0), Answer::Inserted);
    assert_eq!(reports(&run), [(3, 1, 1), NONE, NONE, NONE]);
    assert_eq!(run.step(1), Answer::Moved);
    assert_eq!(reports(&run), [NONE; 4]);
    assert_eq!(run.step(1), Answer::Moved);
    assert_eq!(reports(&run), [(2, 1, 1), NONE, NONE, NONE]);
    assert_eq!(run.step(1), Answer::Inserted);
    let words = [
        [2, 2, 1, 6, 3, 20, 2],
        [1, 1, 5, 7, 0, 0, 0],
        E[2],
        [1, 2, 6, 7, 10, 7, 0],
    ];
    assert_eq!(run.words, words.concat());
}

/// "the want of page 0 goes to the end of the order": behind those who came later, and before who comes then.
#[test]
fn one_that_has_begun_again_stands_last() {
    let mut run = two_levels();
    run.begin(0, Op::Delete(10, Second));
    run.step(0);
    run.begin(1, Op::Search(20));
    run.begin(2, Op::Search(30));
    assert_eq!(run.state.order(), [0, 1, 2]);
    assert_eq!(run.step(0), Answer::Moved);
    assert_eq!(run.state.order(), [1, 2, 0]);
    run.begin(3, Op::Search(10));
    assert_eq!(run.step(3), Answer::Waiting);
    // the two older wants of page 0, and then their locks there
    assert_eq!(run.step(0), Answer::Waiting);
    assert_eq!(run.step(2), Answer::Moved);
    assert_eq!(run.step(1), Answer::Moved);
    assert_eq!(run.step(0), Answer::Waiting);
    assert_eq!(run.step(1), Answer::Found(7));
    assert_eq!(run.step(2), Answer::Found(7));
    assert_eq!(run.step(3), Answer::Waiting);
    assert_eq!(run.step(0), Answer::Moved);
    assert_eq!(run.state.order(), [3, 0]);
    run.finish();
    assert_eq!((run.tally["Deleted"], run.tally["NotFound"]), (1, 1));
}

/// Between giving up and beginning again another may have done the change, or undone what was in its way.
#[test]
fn what_changed_before_it_comes_again() {
    let mut run = two_levels();
    run.begin(0, Op::Delete(10, Second));
    run.step(0);
    run.begin(1, Op::Insert(5, 7, First));
    assert_eq!(run.step(0), Answer::Moved);
    assert_eq!(run.step(1), Answer::Moved);
    assert_eq!(run.step(1), Answer::Inserted);
    assert_eq!(run.step(0), Answer::Moved);
    assert_eq!(run.step(0), Answer::Deleted(7));
    let mut run = entered(1, &[10]);
    run.begin(0, Op::Delete(10, Second));
    run.begin(1, Op::Delete(10, Second));
    assert_eq!(run.step(0), Answer::Moved);
    assert_eq!(run.step(1), Answer::Moved);
    assert_eq!(run.step(1), Answer::Waiting);
    assert_eq!(run.step(0), Answer::Deleted(7));
    assert_eq!(run.step(1), Answer::NoSuchKey);
}

/// Updates by the second way of keys whose leaf is page 2, and what each is answered there; one begins again.
const UPDATES: [(Op, Answer); 4] = [
    (Op::Insert(25, 7, Second), Answer::Inserted),
    (Op::Delete(25, Second), Answer::NoSuchKey),
    (Op::Delete(20, Second), Answer::Moved),
    (Op::Regrade(20, 9, Second), Answer::Regraded(7)),
];

#[test]
fn what_it_may_hold_and_want() {
    for (op, answer) in UPDATES {
        let says =
            |path: &[u32], want, lock| says(Slot::open(op, want, path, &[]).wanting(lock), &[]);
        // nothing held, page 0 wanted with updater's ρ
        assert_eq!(says(&[], 0, Lock::UpdaterRho), Answer::Moved);
        assert_eq!(says(&[], 0, Lock::Xi), Answer::Damaged);
        for page in [1, 5, 7] {
            assert_eq!(says(&[], page, Lock::UpdaterRho), Answer::Damaged);
        }
        // one upper page held, its route wanted, below level 3 with updater's ρ and below level 2 with ξ
        assert_eq!(says(&[0], 5, Lock::UpdaterRho), Answer::Moved);
        assert_eq!(says(&[0], 5, Lock::Xi), Answer::Damaged);
        assert_eq!(says(&[5], 2, Lock::Xi), answer);
        assert_eq!(says(&[5], 2, Lock::UpdaterRho), Answer::Damaged);
        assert_eq!(says(&[0], 6, Lock::UpdaterRho), Answer::Damaged);
        assert_eq!(says(&[5], 1, Lock::Xi), Answer::Damaged);
        // it never rests on its leaf
        for (want, lock) in [
            (0, Lock::UpdaterRho),
            (1, Lock::Xi),
            (5, Lock::UpdaterRho),
            (6, Lock::Xi),
        ] {
            assert_eq!(says(&[2], want, lock), Answer::Damaged);
        }
    }
}

/// The clauses of a sound state: one page at most, none beside it, updater's ρ or ξ wanted, no page above the last, none that it holds.
#[test]
fn what_is_no_sound_state() {
    for (op, _) in UPDATES {
        let says = |path: &[u32], beside: &[u32], want, lock| {
            says(Slot::open(op, want, path, beside).wanting(lock), &[])
        };
        assert_ne!(says(&[5], &[], 2, Lock::Xi), Answer::BadState);
        assert_eq!(says(&[0, 5], &[], 2, Lock::Xi), Answer::BadState);
        assert_eq!(says(&[5], &[1], 2, Lock::Xi), Answer::BadState);
        assert_eq!(says(&[], &[1], 2, Lock::Xi), Answer::BadState);
        for lock in [Lock::None, Lock::Rho, Lock::Alpha] {
            assert_eq!(says(&[5], &[], 2, lock), Answer::BadState);
        }
        assert_eq!(says(&[5], &[], 5, Lock::Xi), Answer::BadState);
        assert_eq!(says(&[5], &[], 8, Lock::Xi), Answer::BadState);
        assert_eq!(says(&[8], &[], 2, Lock::Xi), Answer::BadState);
    }
}

/// Its one page is held under updater's ρ and no other kind, whatever is wanted.
#[test]
fn the_kind_of_what_it_holds() {
    for (op, answer) in UPDATES {
        let (above, next) = (
            stands(op, 0, 5, Lock::UpdaterRho),
            stands(op, 5, 2, Lock::Xi),
        );
        for (slot, right) in [(above, Answer::Moved), (next, answer)] {
            assert_eq!(says(slot.holding(Lock::UpdaterRho), &[]), right);
            for lock in [Lock::None, Lock::Rho, Lock::Xi, Lock::Alpha] {
                assert_eq!(says(slot.holding(lock), &[]), Answer::BadState);
            }
        }
    }
}

/// A page that it holds may be held by others with ρ or updater's ρ, and not with ξ; its want with ξ is no lock yet.
#[test]
fn who_holds_a_page_beside_it() {
    for (op, _) in UPDATES {
        for (other, is_right) in [
            (Op::Search(20), true),
            (Op::Next(20), true),
            (Op::Insert(25, 7, Second), true),
            (Op::Insert(25, 7, First), false),
            (Op::Delete(20, First), false),
            (Op::Regrade(20, 9, First), false),
        ] {
            let mut state = three_levels().state;
            state.slots[0] = stands(op, 5, 2, Lock::Xi);
            state.slots[1] = Slot::open(other, 3, &[5], &[]);
            state.order[1] = 1;
            state.waiting = 2;
            assert_eq!(is_sound(&state), is_right, "{op:?} {other:?}");
            // on the leaf that it wants
            state.slots[1] = Slot::open(other, 3, &[2], &[]);
            assert!(is_sound(&state));
        }
    }
}

/// Each of its two pages is sound, and the levels fall by one.
#[test]
fn damaged_pages() {
    for (op, answer) in UPDATES {
        let on_leaf = |spoiled| says(stands(op, 5, 2, Lock::Xi), &[spoiled]);
        for (at, word) in UNSOUND_ON_TWO {
            assert_eq!(on_leaf((at, word)), Answer::Damaged, "{op:?} {at} {word}");
        }
        // what is held by nobody is not looked at
        assert_eq!(on_leaf((0, 9)), answer);
        assert_eq!(on_leaf((7, 9)), answer);
        // from page 5 it would want the page that it then holds
        let back = says(stands(op, 0, 5, Lock::UpdaterRho), &[(FIVE + 4, 5)]);
        assert_eq!(back, Answer::Damaged);
        // page 0 as it is begun with, damaged
        for (at, word) in [(0, 0), (0, 11), (1, 3), (6, 1), (4, 5)] {
            let begun = says(begun(op, Lock::UpdaterRho), &[(at, word)]);
            assert_eq!(begun, Answer::Damaged, "{op:?} {at} {word}");
        }
    }
}

/// The kind of lock goes by the level of the page held, also where no run has it so: below level 2 comes a leaf.
#[test]
fn the_lock_goes_by_the_level_held() {
    let five = 5 * 7;
    for (op, _) in UPDATES {
        // page 0 on level 2, its route a leaf
        let mut run = two_levels();
        run.begin(0, op);
        run.step(0);
        assert_eq!(run.state.slots[0], stands(op, 0, 2, Lock::Xi));
        // page 5 on level 3 leads to no page on level 2, whatever is wanted
        for lock in [Lock::UpdaterRho, Lock::Xi] {
            let answer = says(stands(op, 5, 2, lock), &[(five, 3)]);
            assert_eq!(answer, Answer::Damaged);
        }
    }
}
