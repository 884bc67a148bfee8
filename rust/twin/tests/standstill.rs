//! Every schedule of three operations in small pools, k = 1 and up to seven pages, the three ways and a `Next` mixed: as long as a slot is
//! open some open slot can be granted, and all come to their ends with at most 38 grants each, so within the rounds.

mod common;

use std::collections::HashMap;

use common::pools::entered;
use twin::{begin, is_sound, step, words_of, Answer, Op, State, Way};

/// Where a schedule stands: the state, the pool's words, and how many of the operations have begun in their slots.
#[derive(Clone)]
struct Stand {
    state: State,
    words: Vec<u32>,
    begun: [bool; 3],
}

/// What tells one stand from another: the columns of three slots, the order, the pool and who has begun.
type Mark = (Vec<u32>, [bool; 3]);

impl Stand {
    fn mark(&self) -> Mark {
        let all = words_of(&self.state);
        let columns = (0..27).flat_map(|row| (0..3).map(move |slot| 19 + 16 * row + slot));
        let columns = columns.map(|at| all[at]);
        let order = all[2..6].iter().copied();
        let words = columns.chain(order).chain(self.words.iter().copied());
        (words.collect(), self.begun)
    }

    /// What follows where a slot begins or is stepped; nothing where it waits or is done.
    fn after(&self, slot: usize, op: Op) -> Option<Stand> {
        let mut next = self.clone();
        if !self.begun[slot] {
            (_, next.state) = begin(&self.state, slot, op);
            next.begun[slot] = true;
            return Some(next);
        }
        self.state.slots[slot].op?;
        let (answer, state) = step(&self.state, &mut next.words, slot);
        assert!(answer.heard()[0] >= Answer::Waiting.number(), "{answer:?}");
        next.state = state;
        (answer != Answer::Waiting).then_some(next)
    }

    /// Whether an operation is under way.
    fn is_open(&self) -> bool {
        self.state.slots.iter().any(|slot| slot.op.is_some())
    }
}

/// What was met in a search of all schedules.
#[derive(Default)]
struct Met {
    stands: usize,
    conversions: usize,
    /// Stands in which a conversion waits.
    held_up: usize,
    /// The longest way from a start to its end.
    longest: usize,
}

/// All schedules of three operations from one pool.
struct Search<'a> {
    ops: [Op; 3],
    /// The longest way from a stand to the end, for those that were searched.
    known: HashMap<Mark, usize>,
    met: &'a mut Met,
}

impl Search<'_> {
    /// The longest way from a stand to its end.
    fn longest(&mut self, stand: &Stand) -> usize {
        let mark = stand.mark();
        if let Some(&known) = self.known.get(&mark) {
            return known;
        }
        assert!(is_sound(&stand.state));
        let steps: Vec<(usize, Stand)> = (0..3)
            .filter_map(|slot| Some((slot, stand.after(slot, self.ops[slot])?)))
            .collect();
        self.count(stand, &steps);
        let is_granted = |(slot, _): &(usize, Stand)| stand.begun[*slot];
        assert!(
            !stand.is_open() || steps.iter().any(is_granted),
            "{:?}",
            self.ops
        );
        let ways = steps.iter().map(|(_, next)| 1 + self.longest(next));
        let longest = ways.max().unwrap_or(0);
        self.known.insert(mark, longest);
        longest
    }

    /// Counts what the third way does in a stand.
    fn count(&mut self, stand: &Stand, steps: &[(usize, Stand)]) {
        self.met.stands += 1;
        let converts = |slot: &usize| stand.state.slots[*slot].converts();
        for slot in (0..3).filter(converts) {
            let goes = steps.iter().any(|&(own, _)| own == slot);
            self.met.conversions += usize::from(goes);
            self.met.held_up += usize::from(!goes);
        }
    }
}

/// Every operation on a key, by every way that it has.
fn operations(key: u32) -> Vec<Op> {
    let updates = Way::ALL.map(|way| {
        [
            Op::Insert(key, 9, way),
            Op::Delete(key, way),
            Op::Regrade(key, 9, way),
        ]
    });
    [&[Op::Search(key), Op::Next(key)][..], &updates.concat()].concat()
}

/// All schedules of each three of these operations.
fn search(met: &mut Met, n: u32, keys: &[u32], ops: &[Op]) {
    let run = entered(n, keys);
    let start = Stand {
        state: run.state,
        words: run.words,
        begun: [false; 3],
    };
    for (a, &first) in ops.iter().enumerate() {
        for (b, &second) in ops.iter().enumerate().skip(a) {
            for &third in &ops[b..] {
                let ops = [first, second, third];
                let mut search = Search {
                    ops,
                    known: HashMap::new(),
                    met,
                };
                let longest = search.longest(&start);
                assert!(longest <= 3 * (38 + 1), "{ops:?}");
                met.longest = met.longest.max(longest);
            }
        }
    }
}

/// Operations on these keys that are not answered at once, and readers.
fn at_work(there: &[u32], missing: &[u32]) -> Vec<Op> {
    let is_at_work = |op: &Op| match op {
        Op::Insert(key, ..) => missing.contains(key),
        Op::Delete(key, _) | Op::Regrade(key, ..) => there.contains(key),
        Op::Search(_) | Op::Next(_) => true,
    };
    let keys = there.iter().chain(missing);
    keys.flat_map(|&key| operations(key))
        .filter(is_at_work)
        .collect()
}

#[test]
fn a_root_leaf() {
    let mut met = Met::default();
    for n in 1..=3 {
        search(&mut met, n, &[], &operations(10));
        let ops = [operations(10), operations(20)].concat();
        search(&mut met, n, &[10], &ops);
        search(&mut met, n, &[10, 30], &ops);
    }
    assert!(met.conversions > 1000);
}

#[test]
fn two_levels() {
    let mut met = Met::default();
    for n in 3..=5 {
        search(&mut met, n, &[10, 20, 30], &at_work(&[10, 20], &[25]));
        search(&mut met, n, &[10, 20, 30], &at_work(&[30], &[5, 15]));
    }
    assert!(met.conversions > 10_000 && met.held_up > 1000);
}

#[test]
fn three_levels() {
    let mut met = Met::default();
    let keys = [10, 20, 30, 40, 50];
    search(&mut met, 7, &keys, &at_work(&[10], &[45]));
    search(&mut met, 7, &keys, &at_work(&[30, 40], &[]));
    assert!(met.conversions > 10_000 && met.held_up > 1000);
    assert!(met.longest >= 20);
}

/// Every operation on every key that is there, and on one behind each of them, in pools with and without free pages.
#[test]
#[ignore = "it takes four minutes, built for release"]
fn every_key() {
    let keys = [10, 20, 30, 40, 50];
    for (n, many) in [
        (1, 2),
        (3, 2),
        (3, 3),
        (4, 3),
        (5, 3),
        (4, 4),
        (7, 4),
        (7, 5),
    ] {
        let keys = &keys[..many];
        let behind: Vec<u32> = keys.iter().map(|key| key + 5).collect();
        let mut met = Met::default();
        search(&mut met, n, keys, &at_work(keys, &behind));
        println!(
            "{n} pages, {many} keys: {} stands, {} conversions, {} held up, at most {} calls",
            met.stands, met.conversions, met.held_up, met.longest
        );
    }
}
