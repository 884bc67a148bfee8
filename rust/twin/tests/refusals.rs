//! Unsound states, damaged pages and odd arguments: always an answer, and a refusal changes
//! nothing.

mod common;

use common::Run;
use draw::Random;
use twin::{begin, is_sound, make, page_words, report, step, Answer, Lock, Op, State, Way};

/// A run stopped somewhere in the middle.
fn middle(random: &mut Random, k: u32, n: u32) -> Run {
    let mut run = Run::new(k, n);
    for _ in 0..200 + random.below(100) {
        let slot = random.below(16) as usize;
        let key = random.below(40) as u32;
        let way = random.one(&Way::ALL);
        match random.below(10) {
            0 | 1 => run.begin(slot, Op::Insert(key, key, way)),
            2 => run.begin(slot, Op::Delete(key, way)),
            3 => run.begin(slot, Op::Search(key)),
            4 => run.begin(slot, Op::Next(key)),
            5 => run.begin(slot, Op::Regrade(key, key + 1, way)),
            _ => run.step(slot),
        };
    }
    run
}

/// Changes one number of a state.
fn spoil(random: &mut Random, state: &mut State) {
    let odd = [0, 1, 2, 3, 9, 10, 11, 15, 16, 17, 1024, 1025, u32::MAX];
    let drawn = odd[random.below(odd.len() as u64) as usize];
    let cell = random.below(10) as usize;
    let number = random.below(16) as usize;
    let way = random.one(&Way::ALL);
    let slot = &mut state.slots[number];
    let lock = random.one(&[
        Lock::None,
        Lock::Rho,
        Lock::Xi,
        Lock::UpdaterRho,
        Lock::Alpha,
    ]);
    match random.below(17) {
        0 => state.k = drawn,
        1 => state.n = drawn,
        2 => state.waiting = drawn as usize,
        3 => state.order[cell] = drawn as usize,
        4 => slot.want = drawn,
        5 => slot.depth = drawn as usize,
        6 => slot.beside = drawn as usize,
        7 => slot.path[cell] = drawn,
        8 => slot.siblings[cell] = drawn,
        9 => slot.op = None,
        10 => slot.op = Some(Op::Next(drawn)),
        11 => slot.op = Some(Op::Regrade(drawn, 1, way)),
        12 => slot.lock = lock,
        13 => slot.op = slot.op.map(|op| op.by(way)),
        14 => slot.path_locks[cell] = lock,
        15 => slot.sibling_locks[cell] = lock,
        _ => slot.op = Some(Op::Delete(drawn, way)),
    }
}

/// Whether an answer is a refusal.
fn refuses(answer: Answer) -> bool {
    answer.heard()[0] < 32
}

#[test]
fn spoiled_states() {
    let mut random = Random(4);
    let mut unsound = 0;
    for turn in 0..400 {
        let (k, n) = (1 + turn % 2, 8 + turn % 20);
        let run = middle(&mut random, k, n);
        for _ in 0..60 {
            let mut state = run.state;
            for _ in 0..1 + random.below(2) {
                spoil(&mut random, &mut state);
            }
            unsound += u32::from(!is_sound(&state));
            judge_refusals(&mut random, &state, &run.words);
        }
    }
    assert!(unsound > 1000);
}

/// Every call on a state: an unsound one is BadState, a refusal changes nothing.
fn judge_refusals(random: &mut Random, state: &State, words: &[u32]) {
    let slot = random.below(18) as usize;
    let mut after = words.to_vec();
    let (stepped, next) = step(state, &mut after, slot);
    assert_eq!(stepped == Answer::BadState, !is_sound(state));
    if refuses(stepped) || stepped == Answer::Waiting {
        assert_eq!((next, &after[..]), (*state, words));
    }
    let (begun, next) = begin(state, slot, Op::Search(3));
    assert_eq!(begun == Answer::BadState, !is_sound(state));
    if refuses(begun) {
        assert_eq!(next, *state);
    }
    let reported = report(state, random.below(40) as u32);
    assert_eq!(reported == Answer::BadState, !is_sound(state));
}

#[test]
fn damaged_words() {
    let mut random = Random(5);
    let mut damaged = 0;
    for turn in 0..600 {
        let (k, n) = (1 + turn % 3, 8 + turn % 30);
        let run = middle(&mut random, k, n);
        for slot in (0..16).filter(|&slot| run.state.slots[slot].op.is_some()) {
            for _ in 0..20 {
                let words = spoiled_words(&mut random, &run, slot);
                damaged += u32::from(judge_step(&run.state, &words, slot) == Answer::Damaged);
            }
        }
    }
    assert!(damaged > 1000);
}

/// The run's words, some of them changed in pages that the slot holds or wants.
fn spoiled_words(random: &mut Random, run: &Run, slot: usize) -> Vec<u32> {
    let mut words = run.words.clone();
    let slot = &run.state.slots[slot];
    let pages = [slot.held(), vec![slot.want]].concat();
    for _ in 0..1 + random.below(3) {
        let page = pages[random.below(pages.len() as u64) as usize] as usize;
        let at = random.below(page_words(run.k) as u64) as usize;
        words[page * page_words(run.k) + at] = random.below(12) as u32;
    }
    words
}

/// A step leaves a sound state, and if it is refused, all as given.
fn judge_step(state: &State, words: &[u32], slot: usize) -> Answer {
    let mut after = words.to_vec();
    let (answer, next) = step(state, &mut after, slot);
    if refuses(answer) {
        assert_eq!((next, &after[..]), (*state, words));
    }
    assert!(is_sound(&next));
    answer
}

#[test]
fn wrong_lengths() {
    let mut words = [5; 8];
    assert_eq!(make(1, 1, &mut words).0, Answer::BadPool);
    assert_eq!(words, [5; 8]);
    let (_, state) = make(1, 1, &mut words[..7]);
    let (_, state) = begin(&state, 0, Op::Search(1));
    assert_eq!(step(&state, &mut words, 0), (Answer::BadPool, state));
    assert_eq!(step(&state, &mut words[..6], 99), (Answer::BadPool, state));
    assert_eq!(step(&state, &mut words[..7], 99), (Answer::BadSlot, state));
    assert_eq!(step(&state, &mut words[..7], 1), (Answer::SlotIdle, state));
}
