//! The blank tag, 02 (viii): who may name lot number 0, when that is refused, and what a leaf with key 0 is taken for.

mod common;

use common::pools::{entered, three_levels, two_levels};
use common::Run;
use twin::Way::{self, First, Second, Third};
use twin::{
    begin, begin_lent, is_sound, make, open, page_words, report, step, step_lent, words_of, Answer,
    Op, Slot, State, STATE,
};

/// Every operation that names a lot, by every way that it has.
fn naming(key: u32) -> Vec<Op> {
    let updates = |way| {
        [
            Op::Insert(key, 7, way),
            Op::Delete(key, way),
            Op::Regrade(key, 7, way),
        ]
    };
    [
        vec![Op::Search(key)],
        Way::ALL.into_iter().flat_map(updates).collect(),
    ]
    .concat()
}

/// The same with a `Next`.
fn all(key: u32) -> Vec<Op> {
    [naming(key), vec![Op::Next(key)]].concat()
}

/// Case E with some words put otherwise: page 0 above the leaves 1 (10) and 2 (20, 30).
fn changed(spoiled: &[(usize, u32)]) -> (State, Vec<u32>) {
    let run = two_levels();
    let mut words = run.words;
    for &(at, word) in spoiled {
        words[at] = word;
    }
    (run.state, words)
}

/// Where case E has the only reference key, the first key of page 1, and that of page 2.
const REFERENCE: usize = 3;
const OF_ONE: usize = 7 + 2;
const OF_TWO: usize = 14 + 2;

/// Begins an operation in slot 0, and steps it until it is not answered Moved any more; all answers of the steps. A refusal leaves all as given.
fn heard(state: &State, words: &mut [u32], op: Op) -> Vec<Answer> {
    let (begun, mut state) = begin(state, 0, op);
    assert_eq!(begun, Answer::Begun, "{op:?}");
    let mut answers = Vec::new();
    while answers.last().is_none_or(|&last| last == Answer::Moved) {
        let before = words.to_vec();
        let (answer, next) = step(&state, words, 0);
        if answer == Answer::Damaged {
            assert_eq!((next, words.to_vec()), (state, before));
        }
        answers.push(answer);
        state = next;
    }
    answers
}

#[test]
fn its_number_and_name() {
    assert_eq!(Answer::BadKey.number(), 8);
    assert_eq!(Answer::BadKey.told(), [8, 0, 0, 0]);
    assert_eq!(Answer::name_of(8), Some("BadKey"));
}

/// "Begin shall refuse key 0 for every operation but that of (i)": state and words stay as given, and nobody holds or wants anything.
#[test]
fn every_operation_that_names_a_lot() {
    for mut run in [Run::new(1, 1), two_levels(), three_levels()] {
        let (state, words) = (run.state, run.words.clone());
        for op in naming(0) {
            for slot in [0, 7, 15] {
                assert_eq!(run.begin(slot, op), Answer::BadKey, "{op:?}");
                assert_eq!(run.step(slot), Answer::SlotIdle);
            }
        }
        assert_eq!((run.state, run.words), (state, words));
        assert_eq!(report(&state, 0), Answer::Reported(0, 0, 16));
    }
}

/// The keys beside it are lots', and information is any number, also 0.
#[test]
fn no_other_number_is_refused() {
    for key in [1, 2, 255, 256, 65_536, 1 << 31, u32::MAX] {
        for op in all(key) {
            assert_eq!(Run::new(1, 1).begin(0, op), Answer::Begun, "{op:?}");
        }
    }
    for way in Way::ALL {
        for op in [Op::Insert(10, 0, way), Op::Regrade(10, 0, way)] {
            assert_eq!(two_levels().begin(0, op), Answer::Begun, "{op:?}");
        }
    }
}

/// "every operation but that of (i)": the next lot at or above 0 is the first one, and in an empty pool None.
#[test]
fn next_of_0_answers_the_first_lot() {
    for (keys, steps, answer) in [
        (&[][..], 1, Answer::None),
        (&[1], 1, Answer::Next(1, 7)),
        (&[u32::MAX], 1, Answer::Next(u32::MAX, 7)),
        (&[10, 20, 30], 2, Answer::Next(10, 7)),
        (&[10, 20, 30, 40, 50], 3, Answer::Next(10, 7)),
    ] {
        let mut run = entered(8, keys);
        assert_eq!(run.begin(0, Op::Next(0)), Answer::Begun);
        (1..steps).for_each(|_| assert_eq!(run.step(0), Answer::Moved));
        assert_eq!(run.step(0), answer);
        assert_eq!(run.grants[0], steps);
    }
}

/// "after SlotBusy", and that comes after BadSlot and BadState: each is heard of key 0 too.
#[test]
fn what_is_refused_before() {
    let (_, open) = begin(&two_levels().state, 3, Op::Search(10));
    let mut unsound = open;
    unsound.k = 0;
    for op in all(0) {
        for slot in [0, 3, 15, 16, 99] {
            let heard = (Answer::BadState, unsound);
            assert_eq!(begin(&unsound, slot, op), heard, "{op:?}");
        }
        for slot in [16, 99, usize::MAX] {
            assert_eq!(begin(&open, slot, op), (Answer::BadSlot, open), "{op:?}");
        }
        assert_eq!(begin(&open, 3, op), (Answer::SlotBusy, open), "{op:?}");
    }
    for op in naming(0) {
        assert_eq!(begin(&open, 4, op), (Answer::BadKey, open), "{op:?}");
    }
}

/// A slot that is busy with a `Next` of 0, and one that the same `Next` has closed.
#[test]
fn beside_a_next_of_0() {
    let mut run = two_levels();
    assert_eq!(run.begin(0, Op::Next(0)), Answer::Begun);
    assert_eq!(run.begin(0, Op::Search(0)), Answer::SlotBusy);
    assert_eq!(run.begin(1, Op::Search(0)), Answer::BadKey);
    run.finish();
    assert_eq!(run.begin(0, Op::Search(0)), Answer::BadKey);
    run.check();
}

/// Not one lent word is written, whatever stands in the words that a closed slot does not use.
#[test]
fn no_word_of_the_state_changes() {
    let mut state = words_of(&two_levels().state);
    for row in (1..5).chain(7..27) {
        state[19 + 16 * row + 5] = 77;
    }
    let given = state;
    for op in naming(0) {
        assert_eq!(begin_lent(&mut state, 5, op), Answer::BadKey, "{op:?}");
        assert_eq!(state, given);
    }
}

/// What a slot stands in that waits for nobody, in the waiting order and with its pages: a refusal beside it changes none of it.
#[test]
fn a_run_goes_on_as_if_nobody_had_asked() {
    let mut run = three_levels();
    run.begin(2, Op::Delete(10, Third));
    run.begin(1, Op::Insert(45, 7, First));
    run.step(2);
    let state = run.state;
    for op in naming(0) {
        assert_eq!(run.begin(0, op), Answer::BadKey);
    }
    assert_eq!(run.state, state);
    assert_eq!(run.state.order(), [1, 2]);
    run.finish();
    run.check();
}

/// "The check of (vii) treats a leaf with key 0 as a page that is not sound; so does Damaged": under every operation and way, wherever its key
/// would be.
#[test]
fn a_step_to_a_leaf_with_key_0() {
    for key in [1, 5, 10, 19] {
        for op in all(key) {
            let (state, mut words) = changed(&[(OF_ONE, 0)]);
            let answers = heard(&state, &mut words, op);
            assert_eq!(answers, [Answer::Moved, Answer::Damaged], "{op:?}");
        }
    }
    // the same leaf is nobody's who goes elsewhere
    for op in [Op::Search(20), Op::Delete(30, First), Op::Next(25)] {
        let (state, mut words) = changed(&[(OF_ONE, 0)]);
        let answers = heard(&state, &mut words, op);
        assert_ne!(answers.last(), Some(&Answer::Damaged), "{op:?}");
    }
    let (state, mut words) = changed(&[(OF_ONE, 0)]);
    let answers = heard(&state, &mut words, Op::Next(0));
    assert_eq!(answers, [Answer::Moved, Answer::Damaged]);
}

/// Page 0 as a leaf, with one entry and with two; by the second way it does not begin again.
#[test]
fn page_0_is_a_leaf_with_key_0() {
    for count in [1, 2] {
        let page = [1, count, 0, 7, 9 * (count - 1), 7 * (count - 1), 0];
        let state = State::empty(1, 1);
        for op in all(9).into_iter().chain([Op::Next(0)]) {
            let answers = heard(&state, &mut page.clone(), op);
            assert_eq!(answers, [Answer::Damaged], "{op:?}");
        }
    }
    // no entry, and an entry whose information is 0
    for page in [[1, 0, 0, 0, 0, 0, 0], [1, 1, 9, 0, 0, 0, 0]] {
        for op in all(9) {
            let answers = heard(&State::empty(1, 1), &mut page.clone(), op);
            assert!(!answers.contains(&Answer::Damaged), "{op:?}");
        }
    }
}

/// "as given, the slot stays open, the lock is not taken", and it goes on once the page is put right.
#[test]
fn a_slot_goes_on_when_the_leaf_is_put_right() {
    for op in all(10) {
        let (state, mut words) = changed(&[(OF_ONE, 0)]);
        let (_, state) = begin(&state, 0, op);
        let (_, state) = step(&state, &mut words, 0);
        assert_eq!(step(&state, &mut words, 0), (Answer::Damaged, state));
        assert_eq!(report(&state, 1), Answer::Reported(0, 0, 16));
        words[OF_ONE] = 10;
        let (answer, _) = step(&state, &mut words, 0);
        assert!(answer.number() > Answer::Waiting.number(), "{op:?}");
    }
}

/// A deletion's sibling, to its right and to its left, and the leaf that a `Next` crosses to.
#[test]
fn a_leaf_beside_the_way_with_key_0() {
    for way in [First, Third] {
        // 10 is the only entry of its leaf: it wants the leaf to its right
        let (state, mut words) = changed(&[(OF_TWO, 0)]);
        let answers = heard(&state, &mut words, Op::Delete(10, way));
        assert_eq!(answers, [Answer::Moved, Answer::Moved, Answer::Damaged]);
        // 20 alone in its leaf, and none to its right
        let right = [(OF_TWO - 1, 1), (OF_TWO + 2, 0), (OF_TWO + 3, 0)];
        let (state, mut words) = changed(&[&right[..], &[(OF_ONE, 0)]].concat());
        let answers = heard(&state, &mut words, Op::Delete(20, way));
        assert_eq!(answers, [Answer::Moved, Answer::Moved, Answer::Damaged]);
    }
    let (state, mut words) = changed(&[(OF_TWO, 0)]);
    let answers = heard(&state, &mut words, Op::Next(15));
    assert_eq!(answers, [Answer::Moved, Answer::Moved, Answer::Damaged]);
}

/// A tree with k = 2: page 0 above the leaves 1 (10, 20) and 2 (30, 40); nothing but a key 0 is wrong then where 10 or 30 is put to 0.
fn wide() -> (State, Vec<u32>) {
    let pages = [
        [2, 1, 1, 30, 2, 0, 0, 0, 0, 0, 0],
        [1, 2, 10, 7, 20, 7, 0, 0, 0, 0, 0],
        [1, 2, 30, 7, 40, 7, 0, 0, 0, 0, 0],
    ];
    let words = pages.concat();
    assert_eq!(open(2, 3, &words).0, Answer::Opened);
    (State::empty(2, 3), words)
}

/// Where that tree has the first key of page 1, and that of page 2.
const WIDE: [usize; 2] = [11 + 2, 22 + 2];

/// A leaf that is held already: a deletion keeps its leaf while it wants the sibling, a `Next` its own while it crosses, and who goes the
/// third way its leaf and its sibling while it converts.
#[test]
fn a_leaf_that_is_held_with_key_0() {
    for (op, granted, at) in [
        (Op::Delete(20, First), 2, WIDE[0]),
        (Op::Delete(20, Third), 2, WIDE[0]),
        (Op::Next(25), 2, WIDE[0]),
        // page 0, page 1 and page 2 are converted, each by a step
        (Op::Delete(20, Third), 3, WIDE[0]),
        (Op::Delete(20, Third), 3, WIDE[1]),
        (Op::Delete(20, Third), 4, WIDE[0]),
        (Op::Delete(20, Third), 5, WIDE[1]),
        (Op::Insert(15, 7, Third), 2, WIDE[0]),
        (Op::Regrade(20, 9, Third), 2, WIDE[0]),
    ] {
        let (state, mut words) = wide();
        let (_, mut state) = begin(&state, 0, op);
        for _ in 0..granted {
            let (answer, next) = step(&state, &mut words, 0);
            assert_eq!(answer, Answer::Moved, "{op:?}");
            state = next;
        }
        let (right, _) = step(&state, &mut words.clone(), 0);
        assert!(right.number() > Answer::Waiting.number(), "{op:?}");
        words[at] = 0;
        let before = words.clone();
        assert_eq!(step(&state, &mut words, 0), (Answer::Damaged, state));
        assert_eq!(words, before, "{op:?} {granted}");
    }
}

/// Only leaves are named: a step over an upper page with reference key 0 finds it sound. Every key is led to the right of it.
#[test]
fn an_upper_page_with_reference_key_0() {
    for (op, answers) in [
        (Op::Search(5), vec![Answer::Moved, Answer::NotFound]),
        (Op::Search(20), vec![Answer::Moved, Answer::Found(7)]),
        (Op::Next(0), vec![Answer::Moved, Answer::Next(20, 7)]),
        (Op::Next(31), vec![Answer::Moved, Answer::None]),
        (
            Op::Delete(30, First),
            vec![Answer::Moved, Answer::Deleted(7)],
        ),
        (
            Op::Delete(30, Second),
            vec![Answer::Moved, Answer::Deleted(7)],
        ),
        (
            Op::Regrade(20, 9, Second),
            vec![Answer::Moved, Answer::Regraded(7)],
        ),
        (Op::Insert(5, 7, First), vec![Answer::Moved, Answer::NoRoom]),
        (
            Op::Delete(10, Third),
            vec![Answer::Moved, Answer::NoSuchKey],
        ),
    ] {
        let (state, mut words) = changed(&[(REFERENCE, 0)]);
        assert_eq!(heard(&state, &mut words, op), answers, "{op:?}");
    }
}

/// It is written again, and with one more reference key, as any other page.
#[test]
fn an_upper_page_with_reference_key_0_is_changed() {
    let pages = [
        [2, 1, 1, 0, 2, 0, 0],
        [1, 1, 10, 7, 0, 0, 0],
        [1, 2, 20, 7, 30, 7, 0],
        [0; 7],
    ];
    let after = [
        [2, 2, 1, 0, 2, 20, 3],
        pages[1],
        [1, 1, 5, 7, 0, 0, 0],
        pages[2],
    ];
    for (way, moves) in [(First, 1), (Second, 3), (Third, 3)] {
        let mut words = pages.concat();
        let answers = heard(&State::empty(1, 4), &mut words, Op::Insert(5, 7, way));
        let expected = [vec![Answer::Moved; moves], vec![Answer::Inserted]].concat();
        assert_eq!(answers, expected, "{way:?}");
        assert_eq!(words, after.concat());
    }
}

/// What opening words says, k = 1.
fn opened(words: &[u32]) -> Answer {
    let (answer, state) = open(1, words.len() as u32 / 7, words);
    if answer != Answer::Opened {
        assert_eq!(state, State::empty(0, 0));
    }
    answer
}

/// "The check of (vii) treats a leaf with key 0 as a page that is not sound": it is BadPageInPool with that page, the lowest.
#[test]
fn a_leaf_with_key_0_is_not_opened() {
    let words = three_levels().words;
    let key = |page: usize| 7 * page + 2;
    for leaf in 1..=4 {
        for higher in leaf..=4 {
            let mut words = words.clone();
            (words[key(leaf)], words[key(higher)]) = (0, 0);
            assert_eq!(opened(&words), Answer::BadPageInPool(leaf as u32));
        }
        // no tree either; and a page that is not sound for another reason, lower or higher
        for (at, word, named) in [(0, 4, leaf), (6, 1, 0), (7 * 7, 11, leaf)] {
            let mut words = words.clone();
            (words[key(leaf)], words[at]) = (0, word);
            assert_eq!(opened(&words), Answer::BadPageInPool(named as u32));
        }
    }
    // a leaf that hangs nowhere, and page 0
    let mut loose = words;
    loose[7 * 7..7 * 7 + 2].copy_from_slice(&[1, 1]);
    assert_eq!(opened(&loose), Answer::BadPageInPool(7));
    loose[key(7)] = 60;
    assert_eq!(opened(&loose), Answer::BadTree);
    assert_eq!(opened(&[1, 1, 0, 7, 0, 0, 0]), Answer::BadPageInPool(0));
    assert_eq!(opened(&[1, 2, 0, 7, 9, 7, 0]), Answer::BadPageInPool(0));
}

/// A page without entries has no key 0, though a word of 0 stands where a key would; information may be 0, and a lot may have number 1.
#[test]
fn what_is_no_key_0() {
    assert_eq!(opened(&[1, 0, 0, 0, 0, 0, 0]), Answer::Opened);
    assert_eq!(opened(&[1, 1, 1, 0, 0, 0, 0]), Answer::Opened);
    let fresh = [&[1], &[0; 20][..]].concat();
    assert_eq!(opened(&fresh), Answer::Opened);
    let (_, words) = changed(&[(OF_ONE, 1), (OF_ONE + 1, 0), (OF_TWO + 1, 0)]);
    assert_eq!(opened(&words), Answer::Opened);
}

/// Each page is sound by itself then; but no tree has reference key 0: below it there are no keys, and the leaf there has one at least.
#[test]
fn reference_key_0_is_no_tree() {
    assert_eq!(opened(&changed(&[(REFERENCE, 0)]).1), Answer::BadTree);
    let words = three_levels().words;
    for upper in [0, 5, 6] {
        let mut words = words.clone();
        words[7 * upper + 3] = 0;
        assert_eq!(opened(&words), Answer::BadTree, "{upper}");
    }
    // with a leaf that has key 0 there, the leaf is named
    let (_, words) = changed(&[(REFERENCE, 0), (OF_ONE, 0)]);
    assert_eq!(opened(&words), Answer::BadPageInPool(1));
    // an upper page that hangs nowhere
    let (_, words) = changed(&[]);
    let loose = [&words[..], &[2, 1, 1, 0, 2, 0, 0]].concat();
    assert_eq!(opened(&loose), Answer::BadTree);
}

/// In wider pages 0 can be a first key only, and its leaf is named for every k.
#[test]
fn for_every_k() {
    for k in 1..=16 {
        let mut run = Run::new(k, 8);
        run.rise(1);
        let size = page_words(k);
        for page in 0..8 {
            let mut words = run.words.clone();
            let at = page * size;
            let expected = match words[at] {
                0 => continue,
                1 => {
                    words[at + 2] = 0;
                    Answer::BadPageInPool(page as u32)
                }
                _ => {
                    words[at + 3] = 0;
                    Answer::BadTree
                }
            };
            assert_eq!(open(k, 8, &words).0, expected, "{k} {page}");
        }
    }
}

/// 02 speaks of begin: a state that is handed in with a slot open for key 0 is sound, and its steps do what they always did.
#[test]
fn a_slot_that_is_open_with_key_0() {
    for (op, answers) in [
        (Op::Search(0), vec![Answer::Moved, Answer::NotFound]),
        (Op::Delete(0, First), vec![Answer::Moved, Answer::NoSuchKey]),
        (
            Op::Regrade(0, 7, Third),
            vec![Answer::Moved, Answer::NoSuchKey],
        ),
        (
            Op::Insert(0, 7, First),
            vec![Answer::Moved, Answer::Inserted],
        ),
        (
            Op::Insert(0, 7, Second),
            vec![Answer::Moved, Answer::Inserted],
        ),
    ] {
        let run = two_levels();
        let (mut state, mut words) = (run.state, run.words);
        state.slots[0] = Slot::open(op, 0, &[], &[]);
        state.waiting = 1;
        assert!(is_sound(&state), "{op:?}");
        for answer in answers {
            let (said, next) = step(&state, &mut words, 0);
            assert_eq!(said, answer, "{op:?}");
            state = next;
        }
        // what it has entered is a leaf with key 0 from then on
        let is_entered = matches!(op, Op::Insert(..));
        let answer = opened(&words);
        let expected = if is_entered {
            Answer::BadPageInPool(1)
        } else {
            Answer::Opened
        };
        assert_eq!(answer, expected);
    }
}

/// The same from a fresh pool by the second way: beginning again is no begin, so that nothing is refused there.
#[test]
fn beginning_again_with_key_0() {
    let mut words = [9; 7];
    let (_, made) = make(1, 1, &mut words);
    let mut state: [u32; STATE] = words_of(&made);
    assert_eq!(
        begin_lent(&mut state, 4, Op::Insert(10, 7, Second)),
        Answer::Begun
    );
    // its key
    state[19 + 16 + 4] = 0;
    assert_eq!(step_lent(&mut state, &mut words, 4), Answer::Moved);
    assert_eq!(step_lent(&mut state, &mut words, 4), Answer::Inserted);
    assert_eq!(words, [1, 1, 0, 7, 0, 0, 0]);
    begin_lent(&mut state, 4, Op::Search(10));
    assert_eq!(step_lent(&mut state, &mut words, 4), Answer::Damaged);
}
