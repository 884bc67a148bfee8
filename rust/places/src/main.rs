//! Nanoseconds to find a key's place in a page, and to search, with `place` as it was, which goes key by key, and as it is, which
//! halves: `places [RUNS]`. Both must answer the same, and each search must find its lot.

mod pool;
mod ways;

use std::env::args;
use std::time::Instant;

use draw::Random;
use pool::Pool;
use ways::{Way, HALVING, SCAN};

/// How many keys are looked for in one run.
const KEYS: usize = 65_536;
/// How many pages `place` is asked in.
const PAGES: usize = 64;

/// One thing that is timed: once over all keys, with a sum of what was answered.
type Task<'a> = &'a mut dyn FnMut(&Way) -> u64;

/// Nanoseconds for each key, the least of some runs, one way after the other, and the sum that both answered.
fn least(runs: usize, task: Task) -> ([f64; 2], u64) {
    let mut best = [f64::INFINITY; 2];
    let mut sum = 0;
    for _ in 0..runs {
        let sums = [(0, &SCAN), (1, &HALVING)].map(|(i, way)| {
            let start = Instant::now();
            let sum = task(way);
            best[i] = best[i].min(start.elapsed().as_nanos() as f64 / KEYS as f64);
            sum
        });
        assert_eq!(sums[0], sums[1], "the two answer otherwise");
        sum = sums[0];
    }
    (best, sum)
}

/// Leaves with so many pairs, their keys drawn and rising.
fn leaves(random: &mut Random, k: usize, count: usize) -> Vec<Vec<u32>> {
    let gap = u64::from(u32::MAX) / count as u64;
    let leaf = |_| {
        let mut words = vec![0; 4 * k + 3];
        (words[0], words[1]) = (1, count as u32);
        for i in 0..count {
            words[2 + 2 * i] = (i as u64 * gap + random.below(gap)) as u32;
        }
        words
    };
    (0..PAGES).map(leaf).collect()
}

/// The places of all keys, each in the next page.
fn ask_all(way: &Way, pages: &[Vec<u32>], keys: &[u32]) -> u64 {
    let ask = |(i, &key): (usize, &u32)| way.place(&pages[i % PAGES], key) as u64;
    keys.iter().enumerate().map(ask).sum()
}

/// The same, in a page that the last place tells, so that no call can start before the last one has ended.
fn ask_chained(way: &Way, pages: &[Vec<u32>], keys: &[u32]) -> u64 {
    let mut last = 0;
    let mut sum = 0;
    for (i, &key) in keys.iter().enumerate() {
        last = way.place(&pages[(i + last) % PAGES], key);
        sum += last as u64;
    }
    sum
}

/// Both times, and the old divided by the new.
fn shown([scan, halving]: [f64; 2]) -> String {
    format!("{scan:9.1} {halving:9.1} {:6.2}", scan / halving)
}

/// One row: a width, and so many keys in each page.
fn row(random: &mut Random, runs: usize, k: usize, count: usize) {
    let pages = leaves(random, k, count);
    let keys: Vec<u32> = (0..KEYS).map(|_| random.bits() as u32).collect();
    let (place, _) = least(runs, &mut |way| ask_all(way, &pages, &keys));
    let (chained, _) = least(runs, &mut |way| ask_chained(way, &pages, &keys));
    let mut pool = Pool::of(k, count);
    let last = 2 * u64::from(pool.lots);
    // from 1 on: 0 is refused
    let wanted: Vec<u32> = (0..KEYS).map(|_| random.from(1, last) as u32).collect();
    let (search, sum) = least(runs, &mut |way| pool.search_all(way, &wanted));
    assert_eq!(sum, Pool::sum_of(&wanted), "a lot is not found");
    let levels = pool.levels;
    let (place, chained, search) = (shown(place), shown(chained), shown(search));
    println!("{k:3} {count:5} {levels:7}  {place}  {chained}  {search}");
}

fn main() {
    let runs = args().nth(1).and_then(|word| word.parse().ok());
    let runs = runs.unwrap_or(20);
    println!(
        "nanoseconds, the least of {runs} runs: key by key, by halving, the old divided by the new"
    );
    let titles = ["place", "place, each after the last", "a whole search"];
    let titles = titles.map(|title| format!("{title:>26}")).join("  ");
    println!("  k  keys  levels  {titles}");
    let mut random = Random(1);
    for k in [1, 4, 16] {
        row(&mut random, runs, k, 2 * k);
        row(&mut random, runs, k, k);
    }
}
