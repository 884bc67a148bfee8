//! Random schedules from fresh pools.

use draw::Random;
use twin::{make, page_words, Op, Way, BLANK_KEY};

use crate::moment::{Call, Moment};

/// How a schedule is drawn.
pub struct Draw {
    pub k: u32,
    pub n: u32,
    pub keys: u64,
    pub slots: u64,
    /// How many calls until growing turns into shrinking.
    pub turn: usize,
    /// How many operations in a hundred only read, beside those that do anyway: they rest on pages that others would convert.
    pub readers: u64,
}

/// A pool just made.
pub fn made(k: u32, n: u32) -> Moment {
    let mut words = vec![9; n as usize * page_words(k)];
    let (_, state) = make(k, n, &mut words);
    Moment { state, words }
}

/// What kind of schedule: many slots or few, tall trees or low ones.
pub fn draw(random: &mut Random) -> Draw {
    let k = random.one(&[1, 1, 1, 1, 1, 2, 2, 2, 3, 3, 16]);
    let n = random.from(1, if k == 16 { 6 } else { 40 }) as u32;
    let keys = random.from(4, 90);
    Draw {
        k,
        n,
        keys,
        slots: random.one(&[1, 2, 3, 4, 6, 16]),
        turn: random.from(20, 160) as usize,
        readers: random.one(&[0, 0, 40, 60]),
    }
}

/// The next call of a schedule: mostly one that is granted, now and then an odd one.
pub fn next_call(random: &mut Random, draw: &Draw, moment: &Moment, at: usize) -> Call {
    if random.percent(4) {
        return odd_call(random, draw, moment);
    }
    let slot = random.below(draw.slots) as usize;
    let open = moment.open();
    if !open.contains(&slot) && (open.is_empty() || random.percent(50)) {
        let grows = (at / draw.turn).is_multiple_of(2);
        let op = operation(random, draw, grows, &moment.keys());
        return Call::Begin(slot, behind_leaf(random, moment, op));
    }
    let ready = moment.ready();
    let is_converting = |slot: &usize| moment.state.slots[*slot].converts();
    let converting: Vec<usize> = open.iter().copied().filter(is_converting).collect();
    Call::Step(match random.below(20) {
        // whether it waits or not
        0 | 1 if !converting.is_empty() => random.one(&converting),
        ..16 => random.one(&ready),
        _ => random.one(&open),
    })
}

/// A `Next` often asks from behind the last key of a leaf, where its second way begins.
fn behind_leaf(random: &mut Random, moment: &Moment, op: Op) -> Op {
    let ends = moment.ends();
    match op {
        Op::Next(_) if !ends.is_empty() && random.percent(50) => {
            Op::Next(random.one(&ends).saturating_add(1))
        }
        _ => op,
    }
}

/// A call that is likely refused, or a report, half of them for a page that a slot holds. A blank tag is scanned in any slot, busy or not.
fn odd_call(random: &mut Random, draw: &Draw, moment: &Moment) -> Call {
    match random.below(5) {
        0 => Call::Step(random.below(18) as usize),
        1 => Call::Begin(
            random.below(18) as usize,
            operation(random, draw, true, &[]),
        ),
        2 => Call::Begin(random.below(17) as usize, blank_tag(random)),
        3 if moment.held().next().is_some() => {
            let held: Vec<u32> = moment.held().collect();
            Call::Report(random.one(&held))
        }
        _ => Call::Report(random.below(u64::from(draw.n) + 2) as u32),
    }
}

/// A random operation; a deletion or a regrading is mostly of a key that is there, and a `Next` is often from just behind one. Updates go one
/// way or another. Now and then a blank tag is scanned.
pub fn operation(random: &mut Random, draw: &Draw, grows: bool, there: &[u32]) -> Op {
    let key = match random.below(50) {
        0 => u32::MAX,
        1 => BLANK_KEY,
        // from 1 on, so that lots can be entered
        _ => 1 + random.below(draw.keys.min(u64::from(u32::MAX))) as u32,
    };
    if random.percent(draw.readers) {
        return random.one(&[Op::Search(key), Op::Next(key)]);
    }
    let (inserts, deletes) = if grows { (70, 8) } else { (6, 68) };
    let way = random.one(&Way::ALL);
    match random.below(100) {
        drawn if drawn < inserts => Op::Insert(key, random.below(1000) as u32, way),
        drawn if drawn < inserts + deletes && !there.is_empty() && random.percent(85) => {
            Op::Delete(random.one(there), way)
        }
        drawn if drawn < inserts + deletes => Op::Delete(key, way),
        drawn if drawn >= 95 => Op::Search(key),
        drawn if drawn >= 90 => regrade(random, key, way, there),
        _ if !there.is_empty() && random.percent(70) => {
            Op::Next(random.one(there).saturating_add(1))
        }
        _ => Op::Next(key),
    }
}

/// Any operation on the key of a blank tag, a `Next` among them.
pub fn blank_tag(random: &mut Random) -> Op {
    let (way, information) = (random.one(&Way::ALL), random.below(3) as u32);
    random.one(&[
        Op::Search(BLANK_KEY),
        Op::Next(BLANK_KEY),
        Op::Insert(BLANK_KEY, information, way),
        Op::Delete(BLANK_KEY, way),
        Op::Regrade(BLANK_KEY, information, way),
    ])
}

/// A regrading, mostly of a key that is there.
fn regrade(random: &mut Random, key: u32, way: Way, there: &[u32]) -> Op {
    let key = if !there.is_empty() && random.percent(85) {
        random.one(there)
    } else {
        key
    };
    Op::Regrade(key, random.below(1000) as u32, way)
}

/// Draws calls by trying them on a copy.
pub fn draw_calls(
    random: &mut Random,
    draw: &Draw,
    from: &Moment,
    at: usize,
    calls: usize,
) -> Vec<Call> {
    let mut moment = from.clone();
    let mut drawn = Vec::new();
    for i in 0..calls {
        let call = next_call(random, draw, &moment, at + i);
        moment.call(call);
        drawn.push(call);
    }
    drawn
}
