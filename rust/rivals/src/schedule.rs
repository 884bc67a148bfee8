//! The schedule: the same operations in the same slots, stepped in turn, whoever answers. Operations and the numbers of answers are
//! those of the proved index's crate.

use draw::Random;
use ghazfulit::{numbers, Op, Way, ANSWER};

/// An answer as the library tells it: its number and its values, 0 behind them.
pub type Answer = [u32; ANSWER];

/// An answer with nothing behind its number.
pub const fn plain(number: u32) -> Answer {
    [number, 0, 0, 0]
}

/// An answer with one value.
pub const fn with(number: u32, value: u32) -> Answer {
    [number, value, 0, 0]
}

/// Something that answers.
pub trait Program {
    /// A fresh pool.
    fn fresh(k: u32, n: u32) -> Self;
    fn begin(&mut self, slot: u32, op: Op) -> Answer;
    fn step(&mut self, slot: u32) -> Answer;
    /// The words of state and pool.
    fn left(&self) -> (Vec<u32>, Vec<u32>);
}

/// What is run.
#[derive(Clone)]
pub struct Schedule {
    pub k: u32,
    pub n: u32,
    pub slots: u32,
    pub filling: Vec<Op>,
    pub ops: Vec<Op>,
}

impl Schedule {
    /// Nine searches to one update, on a pool that is half full of keys.
    pub fn draw(k: u32, n: u32, slots: u32, count: usize, seed: u64) -> Schedule {
        Schedule::draw_with(9, [k, n, slots], count, seed)
    }

    /// So many searches to one update.
    pub fn draw_with(searches: u64, [k, n, slots]: [u32; 3], count: usize, seed: u64) -> Schedule {
        let mut random = Random(seed);
        let lots = u64::from(n) * u64::from(k) * 3 / 4;
        let range = 2 * lots.max(1);
        // no lot has key 0
        let key = |random: &mut Random| 1 + random.below(range) as u32;
        let filling = (0..lots)
            .map(|i| Op::insert(key(&mut random), i as u32))
            .collect();
        let ops = (0..count)
            .map(|i| match random.below(2 * (searches + 1)) {
                0 => Op::insert(key(&mut random), i as u32),
                1 => Op::delete(key(&mut random)),
                _ => Op::search(key(&mut random)),
            })
            .collect();
        Schedule {
            k,
            n,
            slots,
            filling,
            ops,
        }
    }
}

/// The same operations, but of those at even places a search asks for the next lot and a deletion regrades the lot, and of every three updates
/// about one goes the second way and one the third.
pub fn with_others(schedule: &Schedule) -> Schedule {
    let mut other = schedule.clone();
    for (i, op) in other.ops.iter_mut().enumerate() {
        match *op {
            Op::Search { key } if i % 2 == 0 => *op = Op::next(key),
            Op::Delete { key, .. } if i % 2 == 0 => *op = Op::regrade(key, i as u32),
            _ => {}
        }
        *op = op.by(Way::ALL[i % 3]);
    }
    other
}

/// The same operations, but now and then on the key of a blank tag: who tests refuses it, and the slot takes the next operation. A `Next` goes on.
pub fn with_blank_tags(schedule: &Schedule) -> Schedule {
    let mut other = schedule.clone();
    for op in other.ops.iter_mut().step_by(7) {
        match op {
            Op::Search { key }
            | Op::Insert { key, .. }
            | Op::Delete { key, .. }
            | Op::Next { key }
            | Op::Regrade { key, .. } => *key = 0,
            _ => {}
        }
    }
    other
}

/// The same operations, each update by the way whose turn it is at its place.
pub fn with_ways(schedule: &Schedule, ways: &[Way]) -> Schedule {
    let mut other = schedule.clone();
    for (op, &way) in other.ops.iter_mut().zip(ways.iter().cycle()) {
        *op = op.by(way);
    }
    other
}

/// What a run comes to.
#[derive(PartialEq, Eq)]
pub struct Outcome {
    /// All answers, in one number.
    pub answers: u64,
    pub calls: u64,
    /// Steps that were answered Waiting.
    pub waiting: u64,
    pub left: (Vec<u32>, Vec<u32>),
}

/// Adds an answer to all before it.
fn add(answers: u64, answer: Answer) -> u64 {
    let values = (u64::from(answer[1]) << 32) ^ (u64::from(answer[2]) << 8);
    (answers.rotate_left(5) ^ u64::from(answer[0]) ^ values).wrapping_mul(0x9E37_79B9_7F4A_7C15)
}

/// Runs operations: each slot that is free takes the next, and the slots are stepped in turn. Gives all answers in one number, the calls, and
/// how many of them were answered Waiting.
pub fn run<P: Program>(program: &mut P, slots: u32, ops: &[Op]) -> (u64, u64, u64) {
    let (mut answers, mut calls, mut waiting) = (0, 0, 0);
    let mut is_open = [false; 16];
    let (mut next, mut open) = (0, 0);
    loop {
        for slot in 0..slots {
            let answer = if is_open[slot as usize] {
                program.step(slot)
            } else if next < ops.len() {
                next += 1;
                let answer = program.begin(slot, ops[next - 1]);
                let is_begun = answer[0] == numbers::BEGUN;
                is_open[slot as usize] = is_begun;
                open += u32::from(is_begun);
                answer
            } else {
                continue;
            };
            calls += 1;
            waiting += u64::from(answer[0] == numbers::WAITING);
            answers = add(answers, answer);
            if numbers::ends(answer[0]) {
                is_open[slot as usize] = false;
                open -= 1;
            }
        }
        if open == 0 && next == ops.len() {
            return (answers, calls, waiting);
        }
    }
}
