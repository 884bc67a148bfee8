//! A pool in the making: pages written one by one, with keys and pointers that are drawn, and where they lead. What places a slot
//! in such a pool, and what breaks a clause there, rest on it.

use draw::Random;
use twin::{page_words, Op, Page, Way, BLANK_KEY};

/// A pool being built, and what its pages must be.
pub(crate) struct Build {
    pub k: u32,
    pub n: u32,
    pub keys: u64,
    pub words: Vec<u32>,
}

/// A pool of rubbish: some pages free, with words behind the level.
pub(crate) fn rubbish(random: &mut Random) -> Build {
    let k = random.one(&[1, 1, 1, 2, 2, 3]);
    let n = if random.percent(60) {
        random.from(3, 20)
    } else {
        random.from(24, 40)
    } as u32;
    let length = n as usize * page_words(k);
    let mut words: Vec<u32> = (0..length).map(|_| random.below(4) as u32).collect();
    let free = random.one(&[0, 10, 30, 60, 90]);
    for page in 1..n as usize {
        if random.percent(free) {
            words[page * page_words(k)] = 0;
        } else {
            words[page * page_words(k)] = random.from(1, 11) as u32;
        }
    }
    let keys = random.from(12, 40);
    Build { k, n, keys, words }
}

/// An operation on a key near the middle, now and then on that of a blank tag. There are enough keys below that of a `Next` to fill a page, and
/// one above it.
pub(crate) fn operation(random: &mut Random, build: &Build) -> Op {
    let key = random.below(build.keys) as u32;
    // by the second way there is less to hold
    let way = random.one(&[Way::First, Way::First, Way::Second, Way::Third, Way::Third]);
    match random.below(16) {
        0 => Op::Search(key),
        14 | 15 => Op::Regrade(key, random.below(1000) as u32, way),
        1..=4 => Op::Insert(key, random.below(1000) as u32, way),
        5..=8 => Op::Next(random.from(2 * u64::from(build.k) + 1, build.keys - 2) as u32),
        _ => Op::Delete(key, way),
    }
}

/// How many keys a page of the path has: the top one is page 0 or safe, none below is safe. By the second way every page is, but the leaf.
pub(crate) fn path_count(
    random: &mut Random,
    build: &Build,
    op: Op,
    is_top: bool,
    page: u32,
    level: u32,
) -> u32 {
    let k = build.k;
    let least = match (page, level) {
        (0, 1) => 0,
        (0, _) => 1,
        _ => k,
    };
    let (from, to) = match (op, is_top, page) {
        (Op::Search(_) | Op::Next(_) | Op::Regrade(..), ..) | (_, true, 0) => (least, 2 * k),
        (Op::Insert(_, _, Way::Second) | Op::Delete(_, Way::Second), ..) => (least, 2 * k),
        (Op::Insert(..), true, _) => (least, 2 * k - 1),
        (Op::Insert(..), false, _) => (2 * k, 2 * k),
        (Op::Delete(..), true, _) => (k + 1, 2 * k),
        (Op::Delete(..), false, _) => (k, k),
    };
    let drawn = random.from(u64::from(from), u64::from(to)) as u32;
    // full and nearly empty ones prevail: they change their fathers
    match op {
        Op::Insert(..) if random.percent(40) => to,
        Op::Delete(..) if random.percent(40) => from,
        _ => drawn,
    }
}

/// Writes a page of this level and number of keys; one of a leaf's keys may be a given one. A reference key may be that of a blank tag, but no
/// other key of a leaf.
pub(crate) fn write(
    random: &mut Random,
    build: &mut Build,
    page: u32,
    level: u32,
    count: u32,
    with: Option<u32>,
) {
    let mut keys: Vec<u32> = with.into_iter().collect();
    while keys.len() < count as usize {
        let key = random.from(lowest_key(level), build.keys - 1) as u32;
        if !keys.contains(&key) {
            keys.push(key);
        }
    }
    keys.truncate(count as usize);
    write_keys(random, build, page, level, keys);
}

/// The lowest key of a sound page: that of a blank tag is in no leaf.
pub(crate) fn lowest_key(level: u32) -> u64 {
    u64::from(BLANK_KEY) + u64::from(level == 1)
}

/// Writes a page of this level with these keys, and pointers that are drawn.
pub(crate) fn write_keys(
    random: &mut Random,
    build: &mut Build,
    page: u32,
    level: u32,
    mut keys: Vec<u32>,
) {
    keys.sort_unstable();
    let with = if level == 1 {
        keys.iter().map(|key| key + 100).collect()
    } else {
        different(random, keys.len() + 1, build.n)
    };
    write_page(build, page, &Page { level, keys, with });
}

/// Writes a page.
pub(crate) fn write_page(build: &mut Build, number: u32, page: &Page) {
    let (even, odd) = if page.is_leaf() {
        (&page.keys, &page.with)
    } else {
        (&page.with, &page.keys)
    };
    let size = page_words(build.k);
    let part = &mut build.words[number as usize * size..][..size];
    part.fill(0);
    part[0] = page.level;
    part[1] = page.count() as u32;
    for (at, &word) in even.iter().enumerate() {
        part[2 + 2 * at] = word;
    }
    for (at, &word) in odd.iter().enumerate() {
        part[3 + 2 * at] = word;
    }
}

/// So many different numbers from 1 to n-1, or as many as there are and then others.
fn different(random: &mut Random, count: usize, n: u32) -> Vec<u32> {
    let mut all: Vec<u32> = (1..n.max(count as u32 + 1)).collect();
    for i in 0..count {
        let j = random.from(i as u64, all.len() as u64 - 1) as usize;
        all.swap(i, j);
    }
    all.truncate(count);
    all
}

/// Where an upper page sends a key, and which page is the neighbour of the one there.
pub(crate) fn leads(build: &Build, page: u32, key: u32) -> (u32, u32) {
    let pointers = &build.words[page as usize * page_words(build.k) + 2..];
    let (place, beside) = places(build, page, key);
    (pointers[2 * place], pointers[2 * beside])
}

/// The places of those two among the pointers.
pub(crate) fn places(build: &Build, page: u32, key: u32) -> (usize, usize) {
    let size = page_words(build.k);
    let part = &build.words[page as usize * size..][..size];
    let count = part[1] as usize;
    let place = (0..count).filter(|i| part[3 + 2 * i] <= key).count();
    (place, if place < count { place + 1 } else { place - 1 })
}
