//! Random inputs: operations in many slots at once, stepped in random order, with bad lines between them.

use draw::Random;
use twin::{Op, Way, BLANK_KEY, SLOTS};

use crate::input::{begin_line, Input};
use crate::spoil::spoiled;

/// How an input is drawn.
struct Kind {
    slots: u64,
    keys: u64,
    /// How many lines until growing turns into shrinking.
    turn: usize,
    /// How many lines of a hundred are spoiled.
    spoiled: u64,
}

/// An input of at most so many bytes; its last line may be unended.
pub fn random_input(random: &mut Random, most: usize) -> Vec<u8> {
    let kind = Kind {
        slots: random.one(&[1, 2, 3, 4, 8, 16]),
        keys: random.one(&[6, 20, 60, 200, 1000]),
        turn: random.from(20, 1500) as usize,
        spoiled: random.one(&[0, 2, 10, 60]),
    };
    let mut input = Input::default();
    let mut lines = 0;
    let mut length = 0;
    while input.bytes.len() <= most {
        length = input.bytes.len();
        let grows = (lines / kind.turn).is_multiple_of(2);
        next_line(random, &kind, &mut input, grows);
        lines += 1;
    }
    input.bytes.truncate(length);
    if random.percent(20) {
        let cut = random.from(1, 6) as usize;
        input.bytes.truncate(length.saturating_sub(cut));
    }
    input.bytes
}

/// One line more: mostly one that goes on with the work.
fn next_line(random: &mut Random, kind: &Kind, input: &mut Input, grows: bool) {
    let slot = random.below(kind.slots);
    if random.percent(kind.spoiled) {
        let good = good_line(random, slot, kind, grows);
        input.line(&spoiled(random, &good));
        return;
    }
    let open = input.open();
    if random.percent(3) {
        let slot = random.one(&[slot, SLOTS as u64 - 1, SLOTS as u64, u64::from(u32::MAX)]);
        input.line(good_line(random, slot, kind, grows).as_bytes());
    } else if !open.contains(&(slot as usize)) && (open.is_empty() || random.percent(50)) {
        input.begin(slot as usize, operation(random, kind, grows));
    } else if random.percent(85) {
        let ready = input.ready();
        input.step(random.one(&ready));
    } else {
        input.step(random.one(&open));
    }
}

/// A line of one of the forms, with zeros before the slot now and then.
fn good_line(random: &mut Random, slot: u64, kind: &Kind, grows: bool) -> String {
    if random.percent(50) {
        let zeros = if random.percent(20) { "000" } else { "" };
        format!("t {zeros}{slot}")
    } else {
        begin_line(slot, operation(random, kind, grows))
    }
}

/// An operation; keys are few, so that they meet, or at the ends of the range. Now and then a blank tag is scanned.
fn operation(random: &mut Random, kind: &Kind, grows: bool) -> Op {
    let key = match random.below(50) {
        0 => random.one(&[1, u32::MAX - 1, u32::MAX]),
        1 => BLANK_KEY,
        _ => 1 + random.below(kind.keys) as u32,
    };
    let information = random.bits() as u32 >> random.below(32);
    let way = random.one(&Way::ALL);
    let weights = if grows {
        [8, 20, 30, 82]
    } else {
        [8, 20, 30, 40]
    };
    match random.below(100) {
        drawn if drawn < weights[0] => Op::Search(key),
        drawn if drawn < weights[1] => Op::Next(key),
        drawn if drawn < weights[2] => Op::Regrade(key, information, way),
        drawn if drawn < weights[3] => Op::Insert(key, information, way),
        _ => Op::Delete(key, way),
    }
}
