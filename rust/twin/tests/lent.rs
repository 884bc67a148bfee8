//! The state as lent words: both ways, and what a call leaves of them.

use draw::Random;
use twin::Way::{First, Second, Third};
use twin::{
    begin_lent, is_sound, make_lent, report_lent, state_of, step_lent, words_of, Answer, Op, STATE,
};

/// A fresh pool of one page.
fn fresh() -> ([u32; STATE], [u32; 7]) {
    let (mut state, mut words) = ([9; STATE], [9; 7]);
    assert_eq!(make_lent(1, 1, &mut state, &mut words), Answer::Made);
    (state, words)
}

#[test]
fn it_has_451_words() {
    assert_eq!(STATE, 451);
}

#[test]
fn making_writes_every_word() {
    let (state, words) = fresh();
    assert_eq!(state[..3], [1, 1, 0]);
    assert_eq!(state[3..], [0; STATE - 3]);
    assert_eq!(words, [1, 0, 0, 0, 0, 0, 0]);
    let mut refused = [9; STATE];
    assert_eq!(make_lent(0, 1, &mut refused, &mut [5; 3]), Answer::BadPool);
    assert_eq!(refused, [0; STATE]);
}

#[test]
fn columns_stand_where_they_are_said_to() {
    let (mut state, _) = fresh();
    assert_eq!(
        begin_lent(&mut state, 5, Op::Insert(10, 7, First)),
        Answer::Begun
    );
    let mut expected = [0; STATE];
    expected[..4].copy_from_slice(&[1, 1, 1, 5]);
    expected[19 + 5] = 2;
    expected[19 + 16 + 5] = 10;
    expected[19 + 32 + 5] = 7;
    // it wants page 0 with ξ
    expected[19 + 64 + 5] = 2;
    assert_eq!(state, expected);
}

/// Begins an operation in slot 2 of a fresh state: the words then, with its kind, key and information and the kind of lock that it wants.
fn begun(state: &mut [u32; STATE], op: Op, numbers: [u32; 3], lock: u32) -> [u32; STATE] {
    assert_eq!(begin_lent(state, 2, op), Answer::Begun);
    let mut expected = [0; STATE];
    expected[..4].copy_from_slice(&[1, 1, 1, 2]);
    for (row, number) in numbers.into_iter().enumerate() {
        expected[19 + 16 * row + 2] = number;
    }
    expected[19 + 64 + 2] = lock;
    assert_eq!(*state, expected);
    let [kind, key, information] = numbers;
    assert_eq!(Op::of(kind, key, information), Some(op));
    assert_eq!(op.numbers(), (kind, key, information));
    expected
}

#[test]
fn a_next_is_kind_4_with_no_information() {
    let (mut state, mut words) = fresh();
    begun(&mut state, Op::Next(10), [4, 10, 0], 1);
    assert_eq!(step_lent(&mut state, &mut words, 2), Answer::None);
    assert_eq!(state[..3], [1, 1, 0]);
    assert_eq!(state[3..], [0; STATE - 3]);
}

#[test]
fn a_regrading_is_kind_5_with_its_information() {
    let (mut state, mut words) = fresh();
    begun(&mut state, Op::Regrade(10, 7, First), [5, 10, 7], 2);
    assert_eq!(step_lent(&mut state, &mut words, 2), Answer::NoSuchKey);
    assert_eq!(state[..3], [1, 1, 0]);
    assert_eq!(state[3..], [0; STATE - 3]);
}

/// "chosen per operation at begin": kinds 6 to 8. They want page 0 with updater's ρ, and by the first way with ξ.
#[test]
fn the_second_way_has_kinds_of_its_own() {
    for (op, kind, information) in [
        (Op::Insert(10, 7, Second), 6, 7),
        (Op::Delete(10, Second), 7, 0),
        (Op::Regrade(10, 7, Second), 8, 7),
    ] {
        let (mut state, mut words) = fresh();
        let mut expected = begun(&mut state, op, [kind, 10, information], 3);
        // page 0 is a leaf: it begins again, as kind 2, 3 or 5
        assert_eq!(step_lent(&mut state, &mut words, 2), Answer::Moved);
        expected[19 + 2] = [2, 3, 5][kind as usize - 6];
        expected[19 + 64 + 2] = 2;
        assert_eq!(state, expected);
    }
}

/// Kinds 9 to 11 want page 0 with α; 12 is no kind. A page that is converted is wanted with ξ, and keeps its kind until then.
#[test]
fn the_third_way_has_kinds_of_its_own() {
    for (op, kind, information) in [
        (Op::Insert(10, 7, Third), 9, 7),
        (Op::Delete(10, Third), 10, 0),
        (Op::Regrade(10, 7, Third), 11, 7),
    ] {
        let (mut state, mut words) = fresh();
        let mut expected = begun(&mut state, op, [kind, 10, information], 4);
        let answer = step_lent(&mut state, &mut words, 2);
        if kind != 9 {
            assert_eq!(answer, Answer::NoSuchKey);
            continue;
        }
        assert_eq!(answer, Answer::Moved);
        expected[19 + 64 + 2] = 2;
        expected[19 + 80 + 2] = 1;
        expected[19 + 112 + 2] = 4 * 65_536;
        assert_eq!(state, expected);
        assert_eq!(step_lent(&mut state, &mut words, 2), Answer::Inserted);
        assert_eq!(state[2..], [0; STATE - 2]);
    }
    assert_eq!(Op::of(12, 10, 7), None);
}

#[test]
fn words_and_state_give_each_other_back() {
    let mut random = Random(1);
    for _ in 0..2000 {
        let words: [u32; STATE] = std::array::from_fn(|at| match at {
            19..=34 => random.below(12) as u32,
            83..=98 => random.below(6) as u32,
            _ => random.bits() as u32 >> random.below(32),
        });
        let state = state_of(&words).expect("all kinds exist");
        assert_eq!(state_of(&words_of(&state)), Some(state));
    }
}

#[test]
fn a_kind_that_does_not_exist_is_no_state() {
    let (mut state, mut words) = fresh();
    state[19 + 3] = 9;
    let given = state;
    assert_eq!(begin_lent(&mut state, 0, Op::Search(1)), Answer::BadState);
    assert_eq!(step_lent(&mut state, &mut words, 0), Answer::BadState);
    assert_eq!(report_lent(&state, 0), Answer::BadState);
    assert_eq!(state, given);
}

/// Each number that is no kind, and each kind that the operation cannot want at all.
#[test]
fn a_lock_that_is_not_to_be_wanted_is_no_state() {
    let locks = [0, 1, 2, 3, 4, 5, 7, 65_536 + 1, u32::MAX];
    for (kind, sound) in [
        (1, &[1][..]),
        (2, &[2]),
        (3, &[2]),
        (4, &[1]),
        (5, &[2]),
        (6, &[3, 2]),
        (7, &[3, 2]),
        (8, &[3, 2]),
        // a closed slot's is not looked at
        (0, &locks),
    ] {
        for lock in locks {
            let (mut state, mut words) = fresh();
            if let Some(op) = Op::of(kind, 10, 7) {
                begin_lent(&mut state, 3, op);
            }
            state[19 + 64 + 3] = lock;
            let given = state;
            let is_sound = sound.contains(&lock);
            assert_eq!(report_lent(&state, 0) != Answer::BadState, is_sound);
            if !is_sound {
                assert_eq!(begin_lent(&mut state, 0, Op::Search(1)), Answer::BadState);
                assert_eq!(step_lent(&mut state, &mut words, 3), Answer::BadState);
                assert_eq!(state, given);
            }
        }
    }
}

#[test]
fn unused_words_are_not_looked_at() {
    let (mut state, mut words) = fresh();
    begin_lent(&mut state, 1, Op::Search(3));
    // a closed slot's key and lock, a search's information, a cell behind the depth, a cell behind the order
    for at in [19 + 16 + 7, 19 + 64 + 7, 19 + 32 + 1, 19 + 16 * 7 + 1, 18] {
        state[at] = 77;
    }
    assert!(is_sound(&state_of(&state).expect("a state")));
    assert_eq!(step_lent(&mut state, &mut words, 1), Answer::NotFound);
    let mut expected = [0; STATE];
    expected[..2].copy_from_slice(&[1, 1]);
    expected[19 + 16 + 7] = 77;
    expected[19 + 64 + 7] = 77;
    expected[18] = 77;
    assert_eq!(state, expected);
}
