//! The words of pages that are held: the page in the lower half, the number of the kind of its lock in the upper.

use twin::Way::{First, Second, Third};
use twin::{begin_lent, make_lent, report_lent, state_of, step_lent, Answer, Lock, Op, STATE};

/// A pool of so many pages with these keys, k = 1, and slot 4 open with an operation that has so many grants behind it.
fn stepped(n: u32, keys: &[u32], op: Op, grants: usize) -> ([u32; STATE], Vec<u32>) {
    let (mut state, mut words) = ([9; STATE], vec![9; n as usize * 7]);
    make_lent(1, n, &mut state, &mut words);
    for &key in keys {
        begin_lent(&mut state, 0, Op::Insert(key, 7, First));
        while step_lent(&mut state, &mut words, 0) == Answer::Moved {}
    }
    begin_lent(&mut state, 4, op);
    for _ in 0..grants {
        assert_eq!(step_lent(&mut state, &mut words, 4), Answer::Moved);
    }
    (state, words)
}

/// Case E, page 0 above the leaves 1 and 2, and slot 4 holds page 0.
fn held(op: Op) -> ([u32; STATE], Vec<u32>) {
    stepped(3, &[10, 20, 30], op, 1)
}

/// Where the words have slot 4's want and its kind, the top of its path, the page below that, and the first beside it.
const WANT: usize = 19 + 16 * 3 + 4;
const LOCK: usize = WANT + 16;
const TOP: usize = 19 + 16 * 7 + 4;
const BELOW: usize = TOP + 16;
const ASIDE: usize = TOP + 16 * 10;

/// Every operation, and the number of the kind of lock under which it holds.
const OPERATIONS: [(Op, u32); 11] = [
    (Op::Search(15), 1),
    (Op::Next(15), 1),
    (Op::Insert(15, 7, First), 2),
    (Op::Delete(10, First), 2),
    (Op::Regrade(10, 7, First), 2),
    (Op::Insert(15, 7, Second), 3),
    (Op::Delete(10, Second), 3),
    (Op::Regrade(10, 7, Second), 3),
    (Op::Insert(15, 7, Third), 4),
    (Op::Delete(10, Third), 4),
    (Op::Regrade(10, 7, Third), 4),
];

/// "Each held page now carries its kind": in the upper half of its word. The page that is wanted has its kind in a row of its own.
#[test]
fn a_held_page_has_its_kind_in_its_word() {
    for (op, lock) in OPERATIONS {
        let (state, _) = held(op);
        assert_eq!(state[TOP], 65_536 * lock, "{op:?}");
        let leaf_lock = if lock == 3 { 2 } else { lock };
        assert_eq!((state[WANT], state[LOCK]), (1, leaf_lock));
        assert_eq!((state[BELOW], state[ASIDE]), (0, 0));
        assert_eq!(report_lent(&state, 0), Answer::Reported(lock, 1, 4));
    }
}

/// Three levels, 0 above 5 and 6: a path of three pages, and one beside it.
#[test]
fn each_of_many_has_its_kind() {
    for (op, lock, path, beside) in [
        (Op::Next(25), 1, [0, 5, 2], 6),
        (Op::Delete(10, First), 2, [0, 5, 1], 2),
        (Op::Delete(10, Third), 4, [0, 5, 1], 2),
    ] {
        let (state, _) = stepped(8, &[10, 20, 30, 40, 50], op, 4);
        for (row, page) in path.into_iter().enumerate() {
            assert_eq!(state[TOP + 16 * row], page + 65_536 * lock, "{op:?}");
        }
        assert_eq!(state[ASIDE], beside + 65_536 * lock, "{op:?}");
    }
}

/// Whether every call says BadState, and leaves all as given; they must agree.
fn is_refused(given: &[u32; STATE], pool: &[u32]) -> bool {
    let (mut state, mut words) = (*given, pool.to_vec());
    let stepped = step_lent(&mut state, &mut words, 4) == Answer::BadState;
    assert!(!stepped || (state == *given && words == pool));
    let mut state = *given;
    let begun = begin_lent(&mut state, 9, Op::Search(1)) == Answer::BadState;
    assert!(!begun || state == *given);
    let reported = report_lent(given, 0) == Answer::BadState;
    assert_eq!((stepped, begun), (begun, reported));
    stepped
}

/// Each upper half but the right one: no kind, another kind, and numbers that are none, up to the largest.
#[test]
fn a_held_page_of_another_kind_is_no_state() {
    for (op, lock) in OPERATIONS {
        let far = [lock + 256, lock + 32_768, 65_535];
        for upper in (0..20).chain(far) {
            let (mut state, words) = held(op);
            state[TOP] = 65_536 * upper;
            // by the third way a page may be converted
            let right = upper == lock || (lock == 4 && upper == 2);
            assert_eq!(is_refused(&state, &words), !right, "{op:?} {upper}");
        }
    }
}

/// A page is what the lower half says: no upper half makes a page above the last one sound, and none hides it.
#[test]
fn a_held_page_is_below_the_upper_half() {
    let (state, words) = held(Op::Search(15));
    for (page, sound) in [
        (0, true),
        (2, true),
        (3, false),
        (1024, false),
        (65_535, false),
    ] {
        let mut other = state;
        other[TOP] = page + 65_536;
        assert_eq!(is_refused(&other, &words), !sound, "{page}");
        other[TOP] = page + 65_536 * 7;
        assert!(is_refused(&other, &words), "{page}");
    }
    // the page that is wanted has no kind in its word
    for upper in [1, 3, 7] {
        let mut other = state;
        other[WANT] += 65_536 * upper;
        assert!(is_refused(&other, &words), "{upper}");
    }
}

/// Whatever stands in the two halves of a cell behind a count; a call that writes the slot leaves 0 there.
#[test]
fn cells_behind_a_count_have_no_kind() {
    for word in [1, 65_536, 131_073, 7 * 65_536 + 9, u32::MAX] {
        let (mut state, mut words) = held(Op::Next(15));
        (state[BELOW], state[ASIDE]) = (word, word);
        // those of a closed slot too
        state[TOP + 1] = word;
        assert!(!is_refused(&state, &words), "{word}");
        assert_eq!(report_lent(&state, 0), Answer::Reported(1, 1, 4));
        assert_eq!(step_lent(&mut state, &mut words, 4), Answer::Moved);
        assert_eq!((state[BELOW], state[ASIDE]), (65_537, 0));
        assert_eq!(step_lent(&mut state, &mut words, 4), Answer::Next(20, 7));
        assert_eq!((state[TOP], state[BELOW], state[TOP + 1]), (0, 0, word));
    }
}

/// What is read of a word that no call writes: its page, and no lock.
#[test]
fn a_number_that_is_no_kind_is_read_as_none() {
    let (mut state, _) = held(Op::Search(15));
    state[TOP] = 7 * 65_536 + 2;
    let slot = state_of(&state).expect("a state").slots[4];
    assert_eq!((slot.path[0], slot.path_locks[0]), (2, Lock::None));
}
