//! Long random schedules from fresh pools, which are opened anew now and then, with all the demands checked on the way.

mod common;

use common::Run;
use draw::Random;
use twin::{Op, Way};

/// How a schedule is drawn.
struct Draw {
    k: u32,
    n: u32,
    keys: u64,
    calls: u32,
    slots: u64,
    check_every: u32,
    /// How many operations in a hundred are a `Next`.
    nexts: u64,
    /// How many updates in a hundred go the second way, and how many the third.
    seconds: u64,
    thirds: u64,
}

impl Draw {
    /// The way of an update.
    fn way(&self, random: &mut Random) -> Way {
        match random.below(100) {
            drawn if drawn < self.seconds => Way::Second,
            drawn if drawn < self.seconds + self.thirds => Way::Third,
            _ => Way::First,
        }
    }
}

/// A random operation: a `Next` so many times in a hundred; otherwise insertions and deletions prevail by turns, by one way or
/// another. Keys are even, so that there is always a number between two of them; now and then a blank tag is scanned, 0.
fn operation(random: &mut Random, run: &Run, draw: &Draw, grows: bool) -> Op {
    let key = match random.below(60) {
        0..=2 => 0,
        3 => u32::MAX,
        _ => 2 * (1 + random.below(draw.keys) as u32),
    };
    if random.percent(draw.nexts) {
        return next(random, run, key);
    }
    let (inserts, deletes) = if grows { (60, 20) } else { (20, 60) };
    let way = draw.way(random);
    match random.below(100) {
        drawn if drawn < inserts => Op::Insert(key, random.bits() as u32, way),
        drawn if drawn < inserts + deletes => Op::Delete(key, way),
        drawn if drawn < 90 => Op::Regrade(key, random.bits() as u32, way),
        _ => Op::Search(key),
    }
}

/// A `Next`: mostly from behind a leaf, where a second way begins; often from beyond the last lot.
fn next(random: &mut Random, run: &Run, key: u32) -> Op {
    match random.below(10) {
        0..=5 => Op::Next(run.behind_leaf(key)),
        6 => Op::Next(u32::MAX),
        _ => Op::Next(key),
    }
}

/// Runs one schedule, and empties the tree at its end.
fn schedule(random: &mut Random, draw: &Draw) -> Run {
    let mut run = Run::new(draw.k, draw.n);
    let mut grows = true;
    for call in 0..draw.calls {
        if random.below(u64::from(draw.calls / 6)) == 0 {
            grows = !grows;
        }
        let mut slot = random.below(draw.slots) as usize;
        if random.percent(35) {
            let op = operation(random, &run, draw, grows);
            run.begin(slot, op);
        } else {
            // with many slots most of them wait; half of the steps shall be granted
            let ready = run.ready();
            if !ready.is_empty() && random.percent(50) {
                slot = random.one(&ready);
            }
            run.step(slot);
        }
        if call % draw.check_every == 0 {
            run.check();
        }
        // whatever is open then ends, and the list goes on
        if call % 700 == 699 {
            run.reopen();
        }
    }
    run.finish();
    run.check();
    empty(&mut run);
    run
}

/// Deletes every entry, sixteen at a time: the pool is fresh again.
fn empty(run: &mut Run) {
    let keys: Vec<u32> = run.list.keys().copied().collect();
    for some in keys.chunks(16) {
        for (slot, &key) in some.iter().enumerate() {
            // slots take turns in the way they go
            let way = Way::ALL[slot % 3];
            run.begin(slot, Op::Delete(key, way));
        }
        run.finish();
    }
    run.check();
    assert_eq!(run.words[0], 1);
    assert!(run.words[1..].iter().all(|&word| word == 0));
}

/// What some runs reached.
#[derive(Default)]
struct Reached {
    tallest: u32,
    beside: [u64; 10],
    again: u64,
    at_once: u64,
    unbarred: u64,
    mixed: u64,
    converted: u64,
    stayed: u64,
    behind: u64,
    held_up: u64,
}

impl Reached {
    /// Adds what one more run reached.
    fn add(&mut self, run: &Run) {
        self.tallest = self.tallest.max(run.tallest);
        for (all, more) in self.beside.iter_mut().zip(run.beside) {
            *all += more;
        }
        self.again += run.again;
        self.at_once += run.at_once;
        self.unbarred += run.unbarred;
        self.mixed += run.mixed;
        self.converted += run.converted;
        self.stayed += run.stayed;
        self.behind += run.behind;
        self.held_up += run.held_up;
    }

    /// What the third way is there for was met often enough.
    fn check_third(&self) {
        assert!(self.converted > 1000, "{}", self.converted);
        assert!(self.stayed > 500, "{}", self.stayed);
        assert!(self.behind > 15, "{}", self.behind);
        assert!(self.held_up > 15, "{}", self.held_up);
    }

    /// How often a `Next` had so many pages beside its path, or more.
    fn beside_from(&self, least: usize) -> u64 {
        self.beside[least..].iter().sum()
    }
}

#[test]
fn small_pools() {
    let mut random = Random(1);
    let mut reached = Reached::default();
    for turn in 0..160 {
        let k = 1 + turn % 4;
        let n = 1 + random.below(40) as u32;
        let (keys, slots) = (5 + random.below(120), 1 + random.below(16));
        let (seconds, thirds) = random.one(&[(0, 0), (50, 0), (100, 0), (0, 100), (33, 33)]);
        let draw = Draw {
            k,
            n,
            keys,
            calls: 1000,
            slots,
            check_every: 1,
            nexts: random.one(&[10, 40]),
            seconds,
            thirds,
        };
        reached.add(&schedule(&mut random, &draw));
    }
    assert!(reached.tallest >= 4);
    assert!(reached.beside_from(1) > 100);
    assert!(reached.again > 1000 && reached.at_once > 1000 && reached.unbarred > 1000);
    assert!(reached.mixed > 1000);
    reached.check_third();
}

#[test]
fn large_pools() {
    let mut random = Random(2);
    let mut reached = Reached::default();
    for (k, n, nexts, seconds, thirds) in [
        (1, 1024, 10, 0, 0),
        (1, 1024, 40, 100, 0),
        (1, 1024, 40, 0, 100),
        (1, 300, 40, 33, 33),
        (2, 500, 40, 50, 50),
        (3, 200, 20, 50, 0),
        (3, 200, 20, 0, 50),
        (4, 100, 20, 100, 0),
        (16, 40, 10, 33, 33),
        (16, 1024, 10, 50, 50),
    ] {
        let keys = 600 * u64::from(k);
        let draw = Draw {
            k,
            n,
            keys,
            calls: 25_000,
            slots: 16,
            check_every: 97,
            nexts,
            seconds,
            thirds,
        };
        reached.add(&schedule(&mut random, &draw));
    }
    assert!(reached.tallest >= 6);
    assert!(reached.beside_from(2) > 100);
    assert!(reached.again > 1000 && reached.at_once > 1000 && reached.unbarred > 100);
    assert!(reached.mixed > 1000);
    reached.check_third();
}

/// What is heard in a run.
const HEARD: [&str; 16] = [
    "Begun",
    "SlotBusy",
    "BadKey",
    "Waiting",
    "Moved",
    "Found",
    "NotFound",
    "Inserted",
    "AlreadyThere",
    "Deleted",
    "NoSuchKey",
    "NoRoom",
    "Next",
    "None",
    "Regraded",
    "SlotIdle",
];

#[test]
fn every_kind_of_answer() {
    let mut random = Random(3);
    let mut run = Run::new(1, 12);
    let draw = Draw {
        k: 1,
        n: 12,
        keys: 30,
        calls: 40_000,
        slots: 16,
        check_every: 1,
        nexts: 30,
        seconds: 33,
        thirds: 33,
    };
    for _ in 0..draw.calls {
        let slot = random.below(draw.slots) as usize;
        if random.percent(40) {
            let op = operation(&mut random, &run, &draw, true);
            // with the largest key there would always be a next one
            if op.key() < u32::MAX || matches!(op, Op::Next(_)) {
                run.begin(slot, op);
            }
        } else {
            run.step(slot);
        }
    }
    for name in HEARD {
        assert!(
            run.tally.get(name).is_some_and(|&times| times > 10),
            "{name}"
        );
    }
}

/// Rising keys leave pages half full, which gives the tallest tree of the pool.
#[test]
fn rising_keys() {
    let mut run = Run::new(1, 1024);
    run.rise(1);
    run.check();
    assert_eq!(run.tallest, 10);
    empty(&mut run);
}
