//! The next lot at or above a key: its way down, its second way, and what it holds at each step; and when the pages of a
//! second way are sound for a step, clause by clause.

mod common;

use common::pools::{entered, three_levels, two_levels};
use common::Run;
use twin::Way::First;
use twin::{is_sound, make, page_words, report, step, Answer, Op, Slot, State};

const NONE: &[u32] = &[];

/// The path, what is beside it, and the want of slot 0.
fn stand(run: &Run) -> (&[u32], &[u32], u32) {
    let slot = &run.state.slots[0];
    (slot.path(), slot.siblings(), slot.want)
}

/// A `Next` alone in slot 0: where it stands after each grant but the last, and how it ends.
fn judge(run: &mut Run, key: u32, stands: &[(&[u32], &[u32], u32)], answer: Answer) {
    assert_eq!(run.begin(0, Op::Next(key)), Answer::Begun);
    for &expected in stands {
        assert_eq!(run.step(0), Answer::Moved, "next from {key}");
        run.check();
        assert_eq!(stand(run), expected, "next from {key}");
    }
    assert_eq!(run.step(0), answer, "next from {key}");
    run.check();
    assert_eq!(run.state.slots[0], Slot::CLOSED);
}

#[test]
fn none_in_an_empty_pool() {
    for key in [0, 5, u32::MAX] {
        judge(&mut Run::new(1, 1), key, &[], Answer::None);
    }
}

#[test]
fn a_root_leaf_answers_at_once() {
    let mut run = entered(1, &[10, 20]);
    for (key, answer) in [
        (0, Answer::Next(10, 7)),
        (10, Answer::Next(10, 7)),
        (11, Answer::Next(20, 7)),
        (20, Answer::Next(20, 7)),
        (21, Answer::None),
        (u32::MAX, Answer::None),
    ] {
        judge(&mut run, key, &[], answer);
    }
}

#[test]
fn it_tells_the_information() {
    let mut run = Run::new(1, 1);
    run.begin(0, Op::Insert(u32::MAX, 3, First));
    run.finish();
    judge(&mut run, 9, &[], Answer::Next(u32::MAX, 3));
}

#[test]
fn over_two_levels() {
    let mut run = two_levels();
    judge(&mut run, 0, &[(&[0], NONE, 1)], Answer::Next(10, 7));
    judge(&mut run, 10, &[(&[0], NONE, 1)], Answer::Next(10, 7));
    judge(&mut run, 20, &[(&[0], NONE, 2)], Answer::Next(20, 7));
    judge(&mut run, 21, &[(&[0], NONE, 2)], Answer::Next(30, 7));
    judge(&mut run, 31, &[(&[0], NONE, 2)], Answer::None);
    // the leaf is kept beside page 0, and the second leaf is wanted
    judge(
        &mut run,
        15,
        &[(&[0], NONE, 1), (&[0, 1], NONE, 2)],
        Answer::Next(20, 7),
    );
}

#[test]
fn a_page_with_a_child_to_the_right_gives_up_its_ancestors() {
    let mut run = three_levels();
    judge(
        &mut run,
        15,
        &[(&[0], NONE, 5), (&[5], NONE, 1), (&[5, 1], NONE, 2)],
        Answer::Next(20, 7),
    );
    judge(
        &mut run,
        5,
        &[(&[0], NONE, 5), (&[5], NONE, 1)],
        Answer::Next(10, 7),
    );
}

#[test]
fn over_three_levels_by_the_leftmost_way() {
    judge(
        &mut three_levels(),
        25,
        &[
            (&[0], NONE, 5),
            (&[0, 5], NONE, 2),
            (&[0, 5, 2], NONE, 6),
            (&[0, 5, 2], &[6], 3),
        ],
        Answer::Next(30, 7),
    );
}

#[test]
fn with_no_child_to_the_right_it_holds_from_page_0() {
    let mut run = three_levels();
    let down: [(&[u32], &[u32], u32); 2] = [(&[0], NONE, 6), (&[0, 6], NONE, 4)];
    judge(&mut run, 45, &down, Answer::Next(50, 7));
    judge(&mut run, 51, &down, Answer::None);
}

/// Rising keys give the tallest tree: its second way takes 19 grants.
#[test]
fn over_ten_levels() {
    let mut run = Run::new(1, 1024);
    run.rise(2);
    assert_eq!(run.words[0], 10);
    let reference = run.words[3];
    run.begin(0, Op::Next(reference - 1));
    for grant in 1..19 {
        assert_eq!(run.step(0), Answer::Moved);
        let (path, beside, _) = stand(&run);
        assert_eq!(path.len() + beside.len(), grant);
    }
    assert_eq!(stand(&run).0.len(), 10);
    assert_eq!(run.step(0), Answer::Next(reference, 7));
    assert_eq!(run.grants[0], 19);
}

#[test]
fn its_locks_are_shared() {
    let mut run = three_levels();
    run.begin(0, Op::Next(25));
    for _ in 0..4 {
        assert_eq!(run.step(0), Answer::Moved);
    }
    for page in [0, 5, 2, 6] {
        assert_eq!(report(&run.state, page), Answer::Reported(1, 1, 0));
    }
    assert_eq!(report(&run.state, 3), Answer::Reported(0, 0, 16));
    run.begin(1, Op::Next(25));
    run.begin(2, Op::Search(25));
    for slot in [1, 2, 1, 2, 1] {
        assert_eq!(run.step(slot), Answer::Moved);
        run.check();
    }
    assert_eq!(report(&run.state, 5), Answer::Reported(1, 3, 0));
    assert_eq!(report(&run.state, 2), Answer::Reported(1, 2, 0));
    assert_eq!(run.step(2), Answer::NotFound);
    assert_eq!(run.step(1), Answer::Moved);
    // an older want for the same page does not bar it, for both read
    assert_eq!(run.step(1), Answer::Next(30, 7));
    assert_eq!(run.step(0), Answer::Next(30, 7));
}

#[test]
fn an_insertion_waits_above_it_until_its_answer() {
    let mut run = three_levels();
    run.begin(0, Op::Next(25));
    run.begin(1, Op::Insert(26, 1, First));
    for _ in 0..4 {
        assert_eq!(run.step(0), Answer::Moved);
        assert_eq!(run.step(1), Answer::Waiting);
    }
    assert_eq!(run.step(0), Answer::Next(30, 7));
    assert_eq!(run.step(1), Answer::Moved);
    run.finish();
}

#[test]
fn an_insertion_comes_in_where_it_gave_up() {
    let mut run = three_levels();
    run.begin(0, Op::Next(15));
    run.step(0);
    run.step(0);
    run.begin(1, Op::Insert(16, 1, First));
    assert_eq!(run.step(1), Answer::Moved);
    // page 5 is held, and the lot comes too late
    assert_eq!(run.step(1), Answer::Waiting);
    assert_eq!(run.step(0), Answer::Moved);
    assert_eq!(run.step(1), Answer::Waiting);
    assert_eq!(run.step(0), Answer::Next(20, 7));
    run.finish();
    judge(
        &mut run,
        15,
        &[(&[0], NONE, 5), (&[5], NONE, 1)],
        Answer::Next(16, 1),
    );
}

#[test]
fn it_waits_on_its_second_way_for_an_insertion() {
    let mut run = three_levels();
    run.begin(1, Op::Insert(45, 1, First));
    run.step(1);
    run.step(1);
    assert_eq!(report(&run.state, 6), Answer::Reported(2, 1, 1));
    run.begin(0, Op::Next(25));
    for _ in 0..3 {
        assert_eq!(run.step(0), Answer::Moved);
    }
    assert_eq!(run.step(0), Answer::Waiting);
    assert_eq!(stand(&run), (&[0, 5, 2][..], NONE, 6));
    assert_eq!(run.step(1), Answer::Inserted);
    assert_eq!(run.step(0), Answer::Moved);
    assert_eq!(run.step(0), Answer::Next(30, 7));
}

/// A pool and a slot 0 that is to be stepped.
struct Stage {
    state: State,
    words: Vec<u32>,
}

impl Stage {
    /// Three levels, and in slot 0 a `Next` from 25 that holds and wants these.
    fn new(path: &[u32], beside: &[u32], want: u32) -> Stage {
        let run = three_levels();
        let mut state = run.state;
        state.slots[0] = Slot::open(Op::Next(25), want, path, beside);
        state.order[0] = 0;
        state.waiting = 1;
        let words = run.words;
        Stage { state, words }
    }

    /// On its second way, before its last grant.
    fn second() -> Stage {
        Stage::new(&[0, 5, 2], &[6], 3)
    }

    /// The same with a page written.
    fn with(mut self, page: usize, words: [u32; 7]) -> Stage {
        let start = page * page_words(1);
        self.words[start..start + 7].copy_from_slice(&words);
        self
    }

    /// What a step says; the state is sound, what is refused stays as given, and an answer closes the slot.
    fn says(&self) -> Answer {
        assert!(is_sound(&self.state));
        let mut after = self.words.clone();
        let (answer, next) = step(&self.state, &mut after, 0);
        assert_eq!(after, self.words);
        assert!(answer != Answer::Damaged || next == self.state);
        let goes_on = matches!(answer, Answer::Damaged | Answer::Moved);
        assert_eq!(next.slots[0].op.is_some(), goes_on);
        answer
    }
}

#[test]
fn a_second_way_that_is_right() {
    assert_eq!(Stage::second().says(), Answer::Next(30, 7));
    assert_eq!(Stage::new(&[0, 5, 2], &[], 6).says(), Answer::Moved);
    assert_eq!(Stage::new(&[0, 5], &[], 2).says(), Answer::Moved);
    assert_eq!(Stage::new(&[0], &[], 5).says(), Answer::Moved);
    assert_eq!(Stage::new(&[], &[], 0).says(), Answer::Moved);
}

#[test]
fn each_page_is_sound_by_itself() {
    for (page, words) in [
        (0, [0, 1, 5, 30, 6, 0, 0]),
        (5, [11, 1, 1, 20, 2, 0, 0]),
        (2, [1, 0, 0, 0, 0, 0, 0]),
        (2, [1, 2, 20, 7, 19, 7, 0]),
        (6, [2, 3, 3, 40, 4, 0, 0]),
        (6, [2, 0, 3, 0, 0, 0, 0]),
        (6, [2, 1, 3, 40, 3, 0, 0]),
        (6, [2, 1, 3, 40, 0, 0, 0]),
        (6, [2, 1, 3, 40, 8, 0, 0]),
        (6, [2, 1, 3, 40, 4, 0, 9]),
        (5, [2, 1, 1, 20, 2, 1, 0]),
        (3, [1, 0, 0, 0, 0, 0, 0]),
        (3, [1, 2, 30, 7, 30, 7, 0]),
        (3, [1, 1, 30, 7, 0, 0, 1]),
    ] {
        let stage = Stage::second().with(page, words);
        assert_eq!(stage.says(), Answer::Damaged, "page {page}: {words:?}");
    }
}

#[test]
fn each_path_page_leads_to_the_next_one_level_lower() {
    for (page, words) in [
        // page 0 leads to 6, and to 7
        (0, [3, 1, 5, 25, 6, 0, 0]),
        (0, [3, 1, 7, 30, 6, 0, 0]),
        // page 5 leads to 1
        (5, [2, 1, 1, 26, 2, 0, 0]),
        // levels
        (0, [4, 1, 5, 30, 6, 0, 0]),
        (5, [3, 1, 1, 20, 2, 0, 0]),
        (2, [2, 1, 1, 20, 4, 0, 0]),
    ] {
        let stage = Stage::second().with(page, words);
        assert_eq!(stage.says(), Answer::Damaged, "page {page}: {words:?}");
    }
}

#[test]
fn the_top_page_is_page_0_or_has_a_child_to_the_right() {
    assert_eq!(Stage::new(&[5], &[], 2).says(), Answer::Damaged);
    assert_eq!(Stage::new(&[5, 2], &[], 6).says(), Answer::Damaged);
    // with a child to the right page 5 may be the top: the want is that child
    let right = [2, 1, 2, 30, 3, 0, 0];
    let stage = |path, beside, want| Stage::new(path, beside, want).with(5, right);
    assert_eq!(stage(&[5], &[], 2).says(), Answer::Moved);
    assert_eq!(stage(&[5, 2], &[], 3).says(), Answer::Next(30, 7));
    // and page 0 is given up
    assert_eq!(stage(&[0, 5], &[], 2).says(), Answer::Damaged);
    assert_eq!(stage(&[0, 5, 2], &[6], 3).says(), Answer::Damaged);
}

#[test]
fn its_leaf_has_no_key_at_or_above() {
    for key in [25, 26, u32::MAX] {
        let stage = Stage::second().with(2, [1, 1, key, 7, 0, 0, 0]);
        assert_eq!(stage.says(), Answer::Damaged);
    }
    let two = Stage::second().with(2, [1, 2, 20, 7, 25, 7, 0]);
    assert_eq!(two.says(), Answer::Damaged);
    let below = Stage::second().with(2, [1, 2, 20, 7, 24, 7, 0]);
    assert_eq!(below.says(), Answer::Next(30, 7));
}

#[test]
fn the_top_page_of_a_second_way_has_a_child_to_the_right() {
    // page 0 sends 25 to 5, its last child
    let last = [3, 1, 6, 20, 5, 0, 0];
    assert_eq!(Stage::second().with(0, last).says(), Answer::Damaged);
    let wants = Stage::new(&[0, 5, 2], &[], 6).with(0, last);
    assert_eq!(wants.says(), Answer::Damaged);
    // on the way down there is nothing wrong with that: the leaf then answers None
    assert_eq!(
        Stage::new(&[0, 5], &[], 2).with(0, last).says(),
        Answer::None
    );
    // a top page that is a leaf has none
    let leaf = Stage::new(&[0], &[], 6).with(0, [1, 1, 20, 7, 0, 0, 0]);
    assert_eq!(leaf.says(), Answer::Damaged);
}

#[test]
fn beside_is_that_child_and_then_each_first_one() {
    // the next child to the right is another one
    let other = [3, 1, 5, 30, 7, 0, 0];
    assert_eq!(Stage::second().with(0, other).says(), Answer::Damaged);
    assert_eq!(
        Stage::new(&[0, 5, 2], &[], 6).with(0, other).says(),
        Answer::Damaged
    );
    // the next, and not the one behind it
    let behind = [3, 2, 5, 30, 7, 60, 6];
    assert_eq!(Stage::second().with(0, behind).says(), Answer::Damaged);
    let before = [3, 2, 5, 30, 6, 60, 7];
    assert_eq!(Stage::second().with(0, before).says(), Answer::Next(30, 7));
    // the first child of 6 is another one
    assert_eq!(
        Stage::second().with(6, [2, 1, 7, 40, 3, 0, 0]).says(),
        Answer::Damaged
    );
    assert_eq!(Stage::new(&[0, 5, 2], &[6], 4).says(), Answer::Damaged);
    // behind a leaf nothing follows
    assert_eq!(Stage::new(&[0, 5, 2], &[6, 3], 4).says(), Answer::Damaged);
}

/// Four levels, and a `Next` from 80 that holds 0, 1, 4, 6 and beside them 2 and 7, and wants 9.
fn four_levels() -> Stage {
    let mut words = vec![0; 12 * page_words(1)];
    let (_, mut state) = make(1, 12, &mut words);
    state.slots[0] = Slot::open(Op::Next(80), 9, &[0, 1, 4, 6], &[2, 7]);
    state.waiting = 1;
    Stage { state, words }
        .with(0, [4, 1, 1, 100, 2, 0, 0])
        .with(1, [3, 1, 3, 50, 4, 0, 0])
        .with(4, [2, 1, 5, 70, 6, 0, 0])
        .with(6, [1, 1, 70, 7, 0, 0, 0])
        .with(2, [3, 1, 7, 150, 8, 0, 0])
        .with(7, [2, 1, 9, 120, 10, 0, 0])
        .with(9, [1, 1, 100, 7, 0, 0, 0])
}

#[test]
fn each_page_beside_is_the_first_child_of_the_one_before() {
    assert_eq!(four_levels().says(), Answer::Next(100, 7));
    for (page, words) in [
        (0, [4, 1, 1, 100, 8, 0, 0]),
        (2, [3, 1, 8, 150, 7, 0, 0]),
        (7, [2, 1, 10, 120, 9, 0, 0]),
        (2, [2, 1, 7, 150, 8, 0, 0]),
        (7, [3, 1, 9, 120, 10, 0, 0]),
        (9, [2, 1, 3, 120, 5, 0, 0]),
    ] {
        let stage = four_levels().with(page, words);
        assert_eq!(stage.says(), Answer::Damaged, "page {page}: {words:?}");
    }
    for (beside, want) in [(&[2][..], 9), (&[7, 2], 9), (&[2, 8], 9), (&[2, 7], 10)] {
        let mut stage = four_levels();
        stage.state.slots[0] = Slot::open(Op::Next(80), want, &[0, 1, 4, 6], beside);
        assert_eq!(stage.says(), Answer::Damaged, "{beside:?} {want}");
    }
    let mut sooner = four_levels();
    sooner.state.slots[0] = Slot::open(Op::Next(80), 7, &[0, 1, 4, 6], &[2]);
    assert_eq!(sooner.says(), Answer::Moved);
}

#[test]
fn each_page_beside_is_one_level_lower() {
    for (page, words) in [
        (6, [3, 1, 3, 40, 4, 0, 0]),
        (6, [1, 1, 30, 7, 0, 0, 0]),
        (3, [2, 1, 1, 40, 4, 0, 0]),
    ] {
        let stage = Stage::second().with(page, words);
        assert_eq!(stage.says(), Answer::Damaged, "page {page}: {words:?}");
    }
    let wanted = Stage::new(&[0, 5, 2], &[], 6).with(6, [3, 1, 3, 40, 4, 0, 0]);
    assert_eq!(wanted.says(), Answer::Damaged);
}

#[test]
fn going_down_nothing_is_beside() {
    assert_eq!(Stage::new(&[0, 5], &[6], 2).says(), Answer::Damaged);
    // and with nothing held page 0 is wanted
    assert_eq!(Stage::new(&[], &[], 5).says(), Answer::Damaged);
    // a leaf with a child to the right nowhere above it is never a top page
    assert_eq!(Stage::new(&[2], &[], 6).says(), Answer::Damaged);
}

#[test]
fn the_page_wanted_next_is_none_that_it_holds() {
    // the leaf 2 is granted, and the next child to the right is 2
    let back = Stage::new(&[0, 5], &[], 2).with(0, [3, 1, 5, 30, 2, 0, 0]);
    assert_eq!(back.says(), Answer::Damaged);
    // 6 is granted, and its first child is held on the path, or is 6
    for child in [5, 2, 6] {
        let stage = Stage::new(&[0, 5, 2], &[], 6).with(6, [2, 1, child, 40, 4, 0, 0]);
        assert_eq!(stage.says(), Answer::Damaged, "first child {child}");
    }
    // what it gave up may be wanted again
    let given_up = Stage::new(&[7], &[], 5)
        .with(7, [3, 1, 5, 30, 6, 0, 0])
        .with(5, [2, 1, 7, 30, 3, 0, 0]);
    assert_eq!(given_up.says(), Answer::Moved);
}

/// The second leaf is looked through like the first: for the first entry at or above the key. Only in a damaged pool is another below it,
/// or is there none.
#[test]
fn the_second_leaf_is_compared_with_the_key() {
    for (words, answer) in [
        ([1, 2, 1, 8, 30, 7, 0], Answer::Next(30, 7)),
        ([1, 2, 24, 8, 25, 9, 0], Answer::Next(25, 9)),
        ([1, 2, 25, 8, 26, 9, 0], Answer::Next(25, 8)),
        ([1, 2, 1, 8, 24, 7, 0], Answer::None),
        ([1, 1, 24, 7, 0, 0, 0], Answer::None),
    ] {
        assert_eq!(Stage::second().with(3, words).says(), answer, "{words:?}");
    }
}
