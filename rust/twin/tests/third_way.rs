//! Updates of the third way: what they answer and write, what is held after each step and under which kind of lock, how they convert, and who
//! waits for whom; and when the state and the pages are sound for a step of them.

mod common;

use common::pools::{entered, says, three_levels, two_levels, FIVE, TWO};
use common::Run;
use twin::Way::{First, Second, Third};
use twin::{is_sound, report, step, Answer, Lock, Op, Slot};

/// The kind of lock in the report of every page: `.` for none, `r` for ρ, `u` for updater's ρ, `a` for α and `x` for ξ.
fn kinds(run: &Run) -> String {
    let of = |page| match report(&run.state, page) {
        Answer::Reported(kind, ..) => ['.', 'r', 'x', 'u', 'a'][kind as usize],
        answer => panic!("page {page}: {answer:?}"),
    };
    (0..run.n).map(of).collect()
}

/// What a step is answered, the page wanted then with the kind of its lock, and the kinds of all pages.
type Stepped<'a> = (Answer, Option<(u32, Lock)>, &'a str);

/// An operation alone in slot 0: what each step is answered, the page wanted then and the kind of its lock, and the kinds of all pages.
fn judge(run: &mut Run, op: Op, steps: &[Stepped]) {
    assert_eq!(run.begin(0, op), Answer::Begun);
    assert_eq!(run.state.slots[0], Slot::open(op, 0, &[], &[]));
    assert_eq!(run.state.slots[0].lock, Lock::Alpha);
    for (at, &(answer, wants, held)) in steps.iter().enumerate() {
        assert_eq!(run.step(0), answer, "{op:?}, step {at}");
        run.check();
        let slot = &run.state.slots[0];
        let wanted = slot.op.map(|_| (slot.want, slot.lock));
        assert_eq!(wanted, wants, "{op:?}, step {at}");
        assert_eq!(kinds(run), held, "{op:?}, step {at}");
    }
    assert_eq!(run.state.slots[0], Slot::CLOSED);
}

/// A page wanted with α on the way, or with ξ where it is held.
const fn new(page: u32) -> Option<(u32, Lock)> {
    Some((page, Lock::Alpha))
}

const fn again(page: u32) -> Option<(u32, Lock)> {
    Some((page, Lock::Xi))
}

/// The pages of E.
const E: [[u32; 7]; 3] = [
    [2, 1, 1, 20, 2, 0, 0],
    [1, 1, 10, 7, 0, 0, 0],
    [1, 2, 20, 7, 30, 7, 0],
];

/// "A key already there or missing is answered at once", with α alone.
#[test]
fn what_the_leaf_answers() {
    for (op, leaf, answer) in [
        (Op::Insert(20, 9, Third), 2, Answer::AlreadyThere(7)),
        (Op::Insert(10, 9, Third), 1, Answer::AlreadyThere(7)),
        (Op::Delete(99, Third), 2, Answer::NoSuchKey),
        (Op::Delete(11, Third), 1, Answer::NoSuchKey),
        (Op::Regrade(25, 9, Third), 2, Answer::NoSuchKey),
    ] {
        let mut run = two_levels();
        let steps = [(Answer::Moved, new(leaf), "a.."), (answer, None, "...")];
        judge(&mut run, op, &steps);
        assert_eq!(run.words, E.concat());
    }
}

/// A leaf with room is held alone when it is converted.
#[test]
fn a_leaf_with_room() {
    let mut run = two_levels();
    let steps = [
        (Answer::Moved, new(1), "a.."),
        (Answer::Moved, again(1), ".a."),
        (Answer::Inserted, None, "..."),
    ];
    judge(&mut run, Op::Insert(5, 7, Third), &steps);
    assert_eq!(run.words, [E[0], [1, 2, 5, 7, 10, 7, 0], E[2]].concat());
}

#[test]
fn a_leaf_that_is_not_short_then() {
    let mut run = two_levels();
    let steps = [
        (Answer::Moved, new(2), "a.."),
        (Answer::Moved, again(2), "..a"),
        (Answer::Deleted(7), None, "..."),
    ];
    judge(&mut run, Op::Delete(20, Third), &steps);
    assert_eq!(run.words, [E[0], E[1], [1, 1, 30, 7, 0, 0, 0]].concat());
}

/// A regrading takes one grant more than the tree has levels.
#[test]
fn a_regrading_converts_its_leaf() {
    for (key, leaf, held) in [(20, 2, "..a"), (10, 1, ".a.")] {
        let mut run = two_levels();
        let steps = [
            (Answer::Moved, new(leaf), "a.."),
            (Answer::Moved, again(leaf), held),
            (Answer::Regraded(7), None, "..."),
        ];
        judge(&mut run, Op::Regrade(key, 9, Third), &steps);
        assert_eq!(run.list[&key], 9);
    }
}

/// "Room is counted in the step that makes the change, after the last conversion": with a page free the leaf is split, and otherwise all is
/// given up.
#[test]
fn a_full_leaf() {
    for (n, answer, rest) in [(3, Answer::NoRoom, ""), (4, Answer::Inserted, ".")] {
        let mut run = entered(n, &[10, 20, 30]);
        let held: Vec<String> = ["a..", "a.a", "x.a", "..."]
            .map(|held| held.to_string() + rest)
            .to_vec();
        let steps = [
            (Answer::Moved, new(2), &held[0][..]),
            (Answer::Moved, again(0), &held[1]),
            (Answer::Moved, again(2), &held[2]),
            (answer, None, &held[3]),
        ];
        judge(&mut run, Op::Insert(25, 7, Third), &steps);
        assert_eq!(run.list.contains_key(&25), answer == Answer::Inserted);
    }
}

/// Room is that of the last conversion: a page taken while it converts is missed, and one given back is there. The words are changed from
/// outside, so that nothing else is.
#[test]
fn room_is_counted_last() {
    let page_3 = 21;
    for (before, after, answer) in [(0, 1, Answer::NoRoom), (1, 0, Answer::Inserted)] {
        let Run {
            mut state,
            mut words,
            ..
        } = entered(4, &[10, 20, 30]);
        words[page_3] = before;
        (_, state) = twin::begin(&state, 0, Op::Insert(25, 7, Third));
        for _ in 0..3 {
            let (moved, next) = step(&state, &mut words, 0);
            assert_eq!(moved, Answer::Moved);
            state = next;
        }
        words[page_3] = after;
        let given = words.clone();
        let (ended, state) = step(&state, &mut words, 0);
        assert_eq!(ended, answer);
        assert_eq!(state.slots[0], Slot::CLOSED);
        assert_eq!(words == given, answer == Answer::NoRoom);
    }
}

/// Case G by the third way: the sibling is wanted with α, and the path page of its level is converted before it.
#[test]
fn a_leaf_that_would_be_short() {
    let mut run = two_levels();
    let steps = [
        (Answer::Moved, new(1), "a.."),
        (Answer::Moved, new(2), "aa."),
        (Answer::Moved, again(0), "aaa"),
        (Answer::Moved, again(1), "xaa"),
        (Answer::Moved, again(2), "xxa"),
        (Answer::Deleted(7), None, "..."),
    ];
    judge(&mut run, Op::Delete(10, Third), &steps);
    let words = [
        [2, 1, 1, 30, 2, 0, 0],
        [1, 1, 20, 7, 0, 0, 0],
        [1, 1, 30, 7, 0, 0, 0],
    ];
    assert_eq!(run.words, words.concat());
}

/// Two siblings: page 0, page 5 before page 6, page 1 before page 2. Also the two that are not beside the leaf are converted.
#[test]
fn a_deletion_with_two_siblings() {
    let mut run = three_levels();
    let steps = [
        (Answer::Moved, new(5), "a......."),
        (Answer::Moved, new(1), "a....a.."),
        (Answer::Moved, new(2), "aa...a.."),
        (Answer::Moved, new(6), "aaa..a.."),
        (Answer::Moved, again(0), "aaa..aa."),
        (Answer::Moved, again(5), "xaa..aa."),
        (Answer::Moved, again(6), "xaa..xa."),
        (Answer::Moved, again(1), "xaa..xx."),
        (Answer::Moved, again(2), "xxa..xx."),
        (Answer::Deleted(7), None, "........"),
    ];
    judge(&mut run, Op::Delete(10, Third), &steps);
}

/// A root leaf is converted like any other page.
#[test]
fn a_root_leaf() {
    for (keys, op, answer) in [
        (&[][..], Op::Insert(10, 7, Third), Answer::Inserted),
        (&[10], Op::Insert(20, 7, Third), Answer::Inserted),
        (&[10, 20], Op::Insert(30, 7, Third), Answer::NoRoom),
        (&[10, 20], Op::Delete(20, Third), Answer::Deleted(7)),
        (&[10], Op::Delete(10, Third), Answer::Deleted(7)),
        (&[10], Op::Regrade(10, 9, Third), Answer::Regraded(7)),
    ] {
        let mut run = entered(1, keys);
        judge(
            &mut run,
            op,
            &[(Answer::Moved, again(0), "a"), (answer, None, ".")],
        );
    }
    for (op, answer) in [
        (Op::Insert(10, 9, Third), Answer::AlreadyThere(7)),
        (Op::Delete(20, Third), Answer::NoSuchKey),
        (Op::Regrade(20, 9, Third), Answer::NoSuchKey),
    ] {
        judge(&mut entered(1, &[10]), op, &[(answer, None, ".")]);
    }
}

/// "A deletion takes at most 19 grants and 19 conversions": the first key of the tallest tree is deleted.
#[test]
fn over_ten_levels() {
    let mut run = Run::new(1, 1024);
    run.rise(1);
    assert_eq!(run.words[0], 10);
    run.begin(0, Op::Delete(1, Third));
    for grant in 1..38 {
        assert_eq!(run.step(0), Answer::Moved);
        let its = &run.state.slots[0];
        assert_eq!(its.holds(its.want), grant >= 19, "{grant}");
    }
    assert_eq!(run.converted, 18);
    assert_eq!(run.step(0), Answer::Deleted(7));
    run.check();
}

/// A search stays on a page with α, and comes to one; the conversion waits for it.
#[test]
fn a_search_rests_on_the_second_page() {
    let mut run = entered(4, &[10, 20, 30]);
    run.begin(1, Op::Next(31));
    run.step(1);
    run.begin(2, Op::Search(30));
    run.begin(0, Op::Insert(25, 7, Third));
    assert_eq!(run.step(0), Answer::Moved);
    assert_eq!(run.step(2), Answer::Moved);
    assert_eq!(kinds(&run), "a...");
    assert_eq!(run.step(0), Answer::Moved);
    // page 0 is converted when nobody reads it any more
    assert_eq!(run.step(0), Answer::Waiting);
    assert_eq!(run.step(2), Answer::Found(7));
    assert_eq!(run.step(0), Answer::Waiting);
    assert_eq!(run.step(1), Answer::None);
    assert_eq!(run.step(0), Answer::Moved);
    assert_eq!(kinds(&run), "x.a.");
    assert_eq!(run.step(0), Answer::Inserted);
}

/// "comes before every other want on it": younger or older, and also a ρ, which α would let in.
#[test]
fn who_comes_while_a_conversion_waits() {
    let mut run = two_levels();
    // slot 1 rests on page 1, and slot 2 stands before it
    run.begin(1, Op::Next(15));
    run.step(1);
    run.step(1);
    run.begin(2, Op::Search(10));
    run.step(2);
    run.begin(0, Op::Insert(5, 7, Third));
    run.step(0);
    assert_eq!(run.step(0), Answer::Moved);
    assert_eq!(kinds(&run), "ra.");
    // the conversion waits for the lock of slot 1, and slot 2's older want for the conversion
    assert_eq!(run.state.order(), [1, 2, 0]);
    assert_eq!(run.step(0), Answer::Waiting);
    assert_eq!(run.step(2), Answer::Waiting);
    run.begin(3, Op::Search(5));
    assert_eq!(run.step(3), Answer::Moved);
    assert_eq!(run.step(3), Answer::Waiting);
    // the older want of slot 2 does not hold the conversion up
    assert_eq!(run.step(1), Answer::Next(20, 7));
    assert_eq!(run.step(0), Answer::Inserted);
    assert_eq!(run.step(2), Answer::Found(7));
    assert_eq!(run.step(3), Answer::Found(7));
}

/// The same before page 0 while it is converted; and the conversion of page 0 bars nobody elsewhere.
#[test]
fn on_another_page_nobody_waits_for_it() {
    let mut run = entered(4, &[10, 20, 30]);
    run.begin(1, Op::Search(10));
    run.step(1);
    run.begin(0, Op::Insert(25, 7, Third));
    run.step(0);
    run.step(0);
    assert_eq!(run.step(0), Answer::Waiting);
    run.begin(2, Op::Search(20));
    assert_eq!(run.step(2), Answer::Waiting);
    assert_eq!(run.step(1), Answer::Found(7));
    assert_eq!(run.step(2), Answer::Waiting);
    assert_eq!(run.step(0), Answer::Moved);
    assert_eq!(run.step(2), Answer::Waiting);
    assert_eq!(run.step(0), Answer::Inserted);
    assert_eq!(run.step(2), Answer::Moved);
}

/// Each kind held beside each wanted, on page 0 of three levels.
#[test]
fn who_waits_for_whom() {
    let ops = [
        Op::Search(10),
        Op::Insert(25, 7, Second),
        Op::Insert(25, 7, Third),
        Op::Insert(25, 7, First),
    ];
    let table = ["+++.", "++..", "+...", "...."];
    for (held, row) in ops.into_iter().zip(table) {
        for (wanted, cell) in ops.into_iter().zip(row.chars()) {
            let mut run = entered(3, &[10, 20, 30]);
            run.begin(0, held);
            assert_eq!(run.step(0), Answer::Moved);
            run.begin(1, wanted);
            let expected = [Answer::Moved, Answer::Waiting][usize::from(cell == '.')];
            assert_eq!(run.step(1), expected, "{held:?} {wanted:?}");
        }
    }
}

/// The want of a conversion goes to the end of the order, each time anew.
#[test]
fn a_conversion_stands_last() {
    let mut run = entered(4, &[10, 20, 30]);
    run.begin(0, Op::Insert(25, 7, Third));
    run.step(0);
    run.begin(1, Op::Search(10));
    assert_eq!(run.state.order(), [0, 1]);
    assert_eq!(run.step(0), Answer::Moved);
    assert_eq!(run.state.order(), [1, 0]);
    run.begin(2, Op::Search(20));
    assert_eq!(run.step(0), Answer::Moved);
    assert_eq!(run.state.order(), [1, 2, 0]);
    run.finish();
}

/// A slot that holds these pages, each with the kind of lock beside it, and wants one.
fn stands(op: Op, want: (u32, Lock), path: &[(u32, Lock)], beside: &[(u32, Lock)]) -> Slot {
    let numbers = |held: &[(u32, Lock)]| held.iter().map(|&(page, _)| page).collect::<Vec<_>>();
    let mut slot = Slot::open(op, want.0, &numbers(path), &numbers(beside)).wanting(want.1);
    for (cell, &(_, lock)) in slot.path_locks.iter_mut().zip(path) {
        *cell = lock;
    }
    for (cell, &(_, lock)) in slot.sibling_locks.iter_mut().zip(beside) {
        *cell = lock;
    }
    slot
}

const A: Lock = Lock::Alpha;
const X: Lock = Lock::Xi;

/// An update of each kind, in the three levels.
const INSERT: Op = Op::Insert(15, 7, Third);
const DELETE: Op = Op::Delete(10, Third);
const REGRADE: Op = Op::Regrade(20, 9, Third);

/// The deletion of 10 in three levels, with the first so many of its pages converted, and what it wants then.
fn converted(many: usize, want: u32) -> Slot {
    let order = [0, 5, 6, 1, 2];
    let with = |page: u32| {
        let at = order.iter().position(|&own| own == page);
        (page, if at < Some(many) { X } else { A })
    };
    let path = [0, 5, 1].map(with);
    let beside = [2, 6].map(with);
    stands(Op::Delete(10, Third), (want, X), &path, &beside)
}

/// "the pages in the order of conversion have ξ up to the wanted page and α from it on"
#[test]
fn whose_turn_it_is() {
    let order = [0, 5, 6, 1, 2];
    for many in 0..5 {
        for (at, &want) in order.iter().enumerate() {
            let expected = match at {
                // from ξ there is nothing to convert
                at if at < many => Answer::BadState,
                at if at > many => Answer::Damaged,
                4 => Answer::Deleted(7),
                _ => Answer::Moved,
            };
            assert_eq!(says(converted(many, want), &[]), expected, "{many} {want}");
        }
    }
    // a page above or below its turn with the other kind
    for (many, want) in order.into_iter().enumerate() {
        let right = converted(many, want);
        for page in 0..3 {
            let mut wrong = right;
            let lock = &mut wrong.path_locks[page];
            *lock = if *lock == A { X } else { A };
            let is_wanted = wrong.path[page] == wrong.want;
            let expected = [Answer::Damaged, Answer::BadState][usize::from(is_wanted)];
            assert_eq!(says(wrong, &[]), expected, "{many} {page}");
        }
        for page in 0..2 {
            let mut wrong = right;
            let lock = &mut wrong.sibling_locks[page];
            *lock = if *lock == A { X } else { A };
            let is_wanted = wrong.siblings[page] == wrong.want;
            let expected = [Answer::Damaged, Answer::BadState][usize::from(is_wanted)];
            assert_eq!(says(wrong, &[]), expected, "{many} {page}");
        }
    }
}

/// Gathering: all that is held has α, and what is wanted too.
#[test]
fn while_it_goes_down_all_is_alpha() {
    for op in [INSERT, Op::Delete(20, Third), REGRADE] {
        let leaf = if op.key() == 15 { 1 } else { 2 };
        let from = |lock| stands(op, (5, lock), &[(0, A)], &[]);
        assert_eq!(says(from(A), &[]), Answer::Moved);
        assert_eq!(says(from(X), &[]), Answer::BadState);
        let from = |lock| stands(op, (5, A), &[(0, lock)], &[]);
        assert_eq!(says(from(X), &[]), Answer::Damaged);
        for lock in [Lock::None, Lock::Rho, Lock::UpdaterRho] {
            assert_eq!(says(from(lock), &[]), Answer::BadState);
        }
        // page 6 is not on the way, and nothing else than page 0 comes first
        let other = stands(op, (6, A), &[(0, A)], &[]);
        assert_eq!(says(other, &[]), Answer::Damaged);
        for page in [1, 5, leaf] {
            let first = Slot::open(op, page, &[], &[]);
            assert_eq!(says(first, &[]), Answer::Damaged);
        }
    }
}

/// What is given up on the way, and what is wanted from the leaf.
#[test]
fn what_it_holds_at_its_leaf_is_alpha() {
    // an insertion gives page 0 up at page 5, which has room; then page 0 is too much
    let op = INSERT;
    assert_eq!(says(Slot::open(op, 1, &[5], &[]), &[]), Answer::Moved);
    assert_eq!(says(Slot::open(op, 1, &[0, 5], &[]), &[]), Answer::Damaged);
    // a deletion may not, as long as no page below can spare
    let op = Op::Delete(20, Third);
    assert_eq!(says(Slot::open(op, 2, &[0, 5], &[]), &[]), Answer::Moved);
    assert_eq!(says(Slot::open(op, 2, &[5], &[]), &[]), Answer::Damaged);
    // at its leaf it wants the sibling, with all that it holds α
    let beside = |lock| stands(op, (1, A), &[(0, A), (5, A), (2, lock)], &[]);
    assert_eq!(says(beside(A), &[]), Answer::Moved);
    assert_eq!(says(beside(X), &[]), Answer::Damaged);
    // at their leaf the others want nothing new
    for (op, leaf) in [(INSERT, 1), (REGRADE, 2)] {
        for want in [0, 3, 6] {
            let slot = Slot::open(op, want, &[leaf], &[]);
            assert_eq!(says(slot, &[]), Answer::Damaged);
        }
    }
}

/// What a step says of an update that holds these pages with α and is about to convert the top one, with words of the pool changed.
fn converting(op: Op, path: &[u32], beside: &[u32], spoiled: &[(usize, u32)]) -> Answer {
    says(Slot::open(op, path[0], path, beside).wanting(X), spoiled)
}

/// "When the change is known": at its leaf, and not where the leaf gives the answer by itself.
#[test]
fn a_conversion_begins_at_the_leaf() {
    assert_eq!(converting(INSERT, &[1], &[], &[]), Answer::Inserted);
    assert_eq!(converting(REGRADE, &[2], &[], &[]), Answer::Regraded(7));
    for (op, path) in [
        (INSERT, vec![5]),
        (REGRADE, vec![5]),
        (DELETE, vec![0, 5]),
        (Op::Insert(10, 7, Third), vec![1]),
        (Op::Delete(11, Third), vec![0, 5, 1]),
        (Op::Regrade(11, 7, Third), vec![1]),
    ] {
        let answer = converting(op, &path, &[], &[]);
        assert_eq!(answer, Answer::Damaged, "{op:?} {path:?}");
    }
}

/// A sibling for each page that will be short, and no other: the one that the rules take, on the level of the page beside it.
#[test]
fn a_conversion_begins_with_all_siblings() {
    let path = [0, 5, 1];
    for (siblings, answer) in [
        (vec![2, 6], Answer::Moved),
        (vec![], Answer::Damaged),
        (vec![2], Answer::Damaged),
        (vec![6, 2], Answer::Damaged),
        (vec![3, 6], Answer::Damaged),
    ] {
        let said = converting(DELETE, &path, &siblings, &[]);
        assert_eq!(said, answer, "{siblings:?}");
    }
    // page 2 can spare an entry: then page 5 will not be short
    let spare = [(TWO + 1, 2), (TWO + 4, 25), (TWO + 5, 7)];
    assert_eq!(converting(DELETE, &path, &[2], &spare), Answer::Moved);
    assert_eq!(converting(DELETE, &path, &[2, 6], &spare), Answer::Damaged);
    let high = [(TWO, 2), (TWO + 2, 3), (TWO + 3, 20), (TWO + 4, 4)];
    assert_eq!(converting(DELETE, &path, &[2, 6], &high), Answer::Damaged);
}

/// The path is the way of the key, from page 0 or a safe page on, and none below that is safe.
#[test]
fn a_conversion_begins_on_the_keys_way() {
    let full = Op::Insert(45, 7, Third);
    assert_eq!(converting(full, &[6, 4], &[], &[]), Answer::Moved);
    for (op, path, siblings) in [
        (full, vec![4], vec![]),
        (INSERT, vec![5, 1], vec![]),
        (DELETE, vec![5, 1], vec![2]),
        (DELETE, vec![0, 5, 2], vec![1, 6]),
        (DELETE, vec![0, 6, 1], vec![2, 5]),
    ] {
        let answer = converting(op, &path, &siblings, &[]);
        assert_eq!(answer, Answer::Damaged, "{op:?} {path:?}");
    }
}

/// Each page that is held is sound by itself; of any other nothing is asked.
#[test]
fn damaged_pages() {
    for (many, want) in [0, 5, 6, 1, 2].into_iter().enumerate() {
        for page in [0, 1, 2, 5, 6] {
            // unused words, the level and the count
            for (at, word) in [(6, 9), (0, 11), (0, 0), (1, 3)] {
                let spoiled = [(page * 7 + at, word)];
                let answer = says(converted(many, want), &spoiled);
                assert_eq!(answer, Answer::Damaged, "{want} {page} {at}");
            }
        }
        for page in [3, 4, 7] {
            let answer = says(converted(many, want), &[(page * 7 + 6, 9)]);
            assert_ne!(answer, Answer::Damaged);
        }
    }
    // page 5 is a level too high above the leaf, and page 0 above page 5
    assert_eq!(says(converted(0, 0), &[(FIVE, 3)]), Answer::Damaged);
    assert_eq!(says(converted(0, 0), &[(0, 4)]), Answer::Damaged);
}

/// Whether the state is sound in which these slots are open.
fn sound(slots: &[Slot]) -> bool {
    let mut state = three_levels().state;
    for (number, &slot) in slots.iter().enumerate() {
        state.slots[number] = slot;
        state.order[number] = number;
    }
    state.waiting = slots.len();
    is_sound(&state)
}

/// "a sound state has no clashing kinds on a page": ρ beside α, and nothing else beside α or ξ.
#[test]
fn who_holds_a_page_beside_it() {
    let third = |lock| stands(INSERT, (1, A), &[(5, lock)], &[]);
    for (other, beside_alpha) in [
        (Op::Search(20), true),
        (Op::Next(20), true),
        (Op::Insert(25, 7, Second), false),
        (Op::Insert(25, 7, Third), false),
        (Op::Insert(25, 7, First), false),
    ] {
        let its = Slot::open(other, 2, &[5], &[]);
        assert_eq!(sound(&[third(A), its]), beside_alpha, "{other:?}");
        assert_eq!(sound(&[its, third(A)]), beside_alpha, "{other:?}");
        assert!(!sound(&[third(X), its]), "{other:?}");
    }
    // one that converts has α on its page until then
    let converts = stands(INSERT, (1, X), &[(1, A)], &[]);
    let reads = Slot::open(Op::Next(15), 2, &[5, 1], &[]);
    assert!(sound(&[converts, reads]) && sound(&[reads, converts]));
}

/// "wants a held page only as such a conversion from α"; ξ is wanted for no other page.
#[test]
fn what_may_be_wanted() {
    for op in [INSERT, Op::Delete(10, Third), Op::Regrade(10, 7, Third)] {
        for wanted in [Lock::None, Lock::Rho, Lock::UpdaterRho, A, X] {
            let wants = |page, held| sound(&[stands(op, (page, wanted), &[(5, held)], &[])]);
            assert_eq!(wants(1, A), wanted == A, "{op:?} {wanted:?}");
            assert_eq!(wants(1, X), wanted == A, "{op:?} {wanted:?}");
            assert_eq!(wants(5, A), wanted == X, "{op:?} {wanted:?}");
            assert!(!wants(5, X), "{op:?} {wanted:?}");
        }
    }
    for op in [
        Op::Search(10),
        Op::Next(10),
        Op::Insert(15, 7, First),
        Op::Insert(15, 7, Second),
    ] {
        for held in [Lock::Rho, Lock::UpdaterRho, A, X] {
            for wanted in [Lock::Rho, Lock::UpdaterRho, A, X] {
                let slot = stands(op, (5, wanted), &[(5, held)], &[]);
                assert!(!sound(&[slot]), "{op:?} {held:?} {wanted:?}");
            }
        }
    }
    // the want of a sibling
    let delete = |want, lock| {
        stands(
            Op::Delete(10, Third),
            (want, X),
            &[(5, A), (1, A)],
            &[(2, lock)],
        )
    };
    assert!(sound(&[delete(2, A)]) && !sound(&[delete(2, X)]) && sound(&[delete(1, X)]));
}

/// Limits as by the first way.
#[test]
fn how_many_pages_it_holds() {
    let holds = |op, path: u32, beside: u32| {
        let mut state = twin::State::empty(1, 64);
        let path: Vec<u32> = (1..=path).collect();
        let beside: Vec<u32> = (20..20 + beside).collect();
        state.slots[0] = Slot::open(op, 50, &path, &beside);
        state.waiting = 1;
        is_sound(&state)
    };
    let (insert, delete) = (Op::Insert(5, 1, Third), Op::Delete(5, Third));
    let regrade = Op::Regrade(5, 1, Third);
    assert!(holds(insert, 10, 0) && !holds(insert, 2, 1));
    assert!(holds(delete, 10, 9) && holds(delete, 3, 2) && !holds(delete, 3, 3));
    assert!(!holds(delete, 10, 10) && !holds(delete, 0, 1));
    assert!(holds(regrade, 1, 0) && !holds(regrade, 2, 0) && !holds(regrade, 1, 1));
}
