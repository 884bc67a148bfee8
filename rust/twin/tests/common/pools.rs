//! Small pools that several tests begin from: k = 1, information 7.

use twin::{is_sound, step, Answer, Op, Slot, Way};

use super::Run;

/// A run with these keys entered one by one.
pub fn entered(n: u32, keys: &[u32]) -> Run {
    let mut run = Run::new(1, n);
    for &key in keys {
        run.begin(0, Op::Insert(key, 7, Way::First));
        run.finish();
    }
    run
}

/// Two levels, case E: 0 above the leaves 1 (10) and 2 (20, 30).
pub fn two_levels() -> Run {
    entered(3, &[10, 20, 30])
}

/// Where pages 5 and 2 of the three levels begin.
pub const FIVE: usize = 5 * 7;
pub const TWO: usize = 2 * 7;

/// A word of page 5 or page 2 put otherwise, so that one of the two is not sound, or the levels do not fall by one.
pub const UNSOUND_ON_TWO: [(usize, u32); 12] = [
    (FIVE, 3),
    (FIVE, 1),
    (FIVE + 1, 0),
    (FIVE + 1, 2),
    (FIVE + 2, 2),
    (FIVE + 4, 8),
    (FIVE + 6, 1),
    (TWO, 2),
    (TWO, 0),
    (TWO + 1, 0),
    (TWO + 1, 3),
    (TWO + 6, 1),
];

/// Three levels: 0 above 5 and 6, 5 above the leaves 1 (10) and 2 (20), 6 above the leaves 3 (30) and 4 (40, 50).
pub fn three_levels() -> Run {
    let run = entered(8, &[10, 20, 30, 40, 50]);
    let pages = [
        [3, 1, 5, 30, 6, 0, 0],
        [1, 1, 10, 7, 0, 0, 0],
        [1, 1, 20, 7, 0, 0, 0],
        [1, 1, 30, 7, 0, 0, 0],
        [1, 2, 40, 7, 50, 7, 0],
        [2, 1, 1, 20, 2, 0, 0],
        [2, 1, 3, 40, 4, 0, 0],
        [0; 7],
    ];
    assert_eq!(run.words, pages.concat());
    run
}

/// What a step says in three levels, with words of the pool changed, where slot 0 is so. What is refused stays as given, and BadState is heard just of a
/// state that is not sound.
pub fn says(slot: Slot, spoiled: &[(usize, u32)]) -> Answer {
    let run = three_levels();
    let (mut state, mut words) = (run.state, run.words);
    state.slots[0] = slot;
    state.waiting = 1;
    for &(at, word) in spoiled {
        words[at] = word;
    }
    let before = words.clone();
    let (answer, next) = step(&state, &mut words, 0);
    let refuses = answer.heard()[0] < 32;
    assert!(!refuses || (next == state && words == before));
    assert_eq!(answer == Answer::BadState, !is_sound(&state));
    answer
}
