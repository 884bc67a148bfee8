//! How long opening a pool takes: the proved one beside a Rust program that checks the same.

use std::hint::black_box;
use std::time::Instant;

use draw::Random;
use ghazfulit::{numbers, Index, Op, Refusal, Step, STATE};

use crate::checking;
use crate::now;
use crate::schedule::{plain, with, Answer};

/// How many words are looked at in one run, so that it takes some tenths of a second: the system may count a thread's time in steps of
/// milliseconds.
const WORDS: usize = 400_000_000;

/// A pool to be opened.
struct Pool {
    name: &'static str,
    k: u32,
    n: u32,
    words: Vec<u32>,
}

/// A pool with random lots, entered until there is no room; with no lots at all where it is to be fresh.
fn pool(name: &'static str, k: u32, n: u32, is_fresh: bool) -> Pool {
    let mut index = Index::new(k, n).expect("in range");
    let mut random = Random(u64::from(k));
    let mut has_room = !is_fresh;
    while has_room {
        // any number but that of a blank tag
        let key = (random.bits() as u32).max(1);
        index.begin(0, Op::insert(key, key)).expect("a closed slot");
        has_room = index.finish(0) != Ok(Step::NoRoom);
    }
    let words = index.into_words();
    Pool { name, k, n, words }
}

/// Opens a pool with the proved call.
fn proved(k: u32, n: u32, words: &mut [u32]) -> Answer {
    match Index::open_over(k, n, words) {
        Ok(_) => plain(numbers::OPENED),
        Err(Refusal::BadPageInPool(page)) => with(numbers::BAD_PAGE_IN_POOL, page),
        Err(refusal) => plain(refusal.number()),
    }
}

/// Opens it with the rival's.
fn rival(k: u32, n: u32, words: &mut [u32]) -> Answer {
    checking::open(k, n, &mut [0; STATE], words)
}

/// A way to open.
type Opens = fn(u32, u32, &mut [u32]) -> Answer;

/// Both answer the same, also with a word changed.
fn compare(pool: &mut Pool) {
    let mut random = Random(1);
    for _ in 0..2000 {
        let at = random.below(pool.words.len() as u64) as usize;
        let was = pool.words[at];
        let any = random.below(1024) as u32;
        pool.words[at] = random.one(&[was, was.wrapping_add(1), was.wrapping_sub(1), any, 0]);
        let answers = [proved as Opens, rival].map(|opens| opens(pool.k, pool.n, &mut pool.words));
        assert_eq!(answers[0], answers[1], "{}, word {at}", pool.name);
        pool.words[at] = was;
    }
}

/// Nanoseconds of one opening, in one run.
fn timed(opens: Opens, pool: &mut Pool) -> f64 {
    let times = WORDS / pool.words.len();
    let clock = Instant::now();
    let start = now(&clock);
    for _ in 0..times {
        let answer = opens(pool.k, pool.n, black_box(&mut pool.words));
        assert_eq!(black_box(answer), plain(numbers::OPENED), "{}", pool.name);
    }
    (now(&clock) - start) as f64 / times as f64
}

/// The medians of several runs, one way after the other.
fn medians(pool: &mut Pool, runs: usize) -> [f64; 2] {
    let mut times = [Vec::new(), Vec::new()];
    for _ in 0..runs {
        for (opens, times) in [proved as Opens, rival].into_iter().zip(&mut times) {
            times.push(timed(opens, pool));
        }
    }
    times.map(|mut times| {
        times.sort_by(f64::total_cmp);
        times[times.len() / 2]
    })
}

/// The table of openings.
pub fn openings(runs: usize) {
    println!("\nnanoseconds an opening, medians of {runs} runs: proved, a program that checks the same, proved / this");
    for mut pool in [
        pool("k = 16, 1,024 pages, full", 16, 1024, false),
        pool("k = 4, 1,024 pages, full", 4, 1024, false),
        pool("k = 1, 1,024 pages, full", 1, 1024, false),
        pool("k = 16, 1,024 pages, fresh", 16, 1024, true),
        pool("k = 2, 64 pages, full", 2, 64, false),
    ] {
        compare(&mut pool);
        let [proved, rival] = medians(&mut pool, runs);
        let ratio = proved / rival;
        println!("{:28} {proved:9.0} {rival:9.0} {ratio:6.2}", pool.name);
    }
}
