//! A built pool in which a `Next` goes down, or stands at its leaf and goes down its second way.

use draw::Random;
use twin::{page_words, Op, Slot};

use crate::broken::break_clause;
use crate::pages::{leads, lowest_key, path_count, write, write_keys, Build};

/// How often a page is drawn again, so that it points to pages that are not used.
const TRIES: usize = 60;

/// How many pages a `Next` holds on its path above a leaf.
const HELD: [u32; 11] = [1, 1, 2, 2, 2, 3, 3, 4, 5, 7, 9];

/// The pages of a `Next` as they are placed.
struct Way {
    key: u32,
    path: Vec<u32>,
    /// The second way, its want at the end.
    second: Vec<u32>,
}

/// Where a page of the way down stands: the top page has a child to the right, those below have none.
#[derive(Clone, Copy, PartialEq, Eq)]
enum Place {
    Top,
    Below,
}

/// Draws where a `Next` stands, and writes the pages that it holds and wants.
pub(crate) fn place_next(random: &mut Random, build: &mut Build, key: u32) -> Option<Slot> {
    if random.percent(35) {
        return place_down(random, build, key);
    }
    let mut slot = place_second(random, build, key)?;
    if random.percent(25) {
        break_clause(random, build, &mut slot, key);
    }
    Some(slot)
}

/// Going down: it wants the route of the lowest page. The leaf that it wants often has nothing for it.
fn place_down(random: &mut Random, build: &mut Build, key: u32) -> Option<Slot> {
    let last = random.one(&[2, 2, 2, 2, 3, 4]);
    let top = draw_top(random, build);
    // page 0 may be the top without a child to the right
    let place = if top == 0 && random.percent(50) {
        Place::Below
    } else {
        Place::Top
    };
    let held = random.one(&HELD);
    let way = go_down(random, build, Way::from(key, top), last, held, place)?;
    let (&want, path) = way.path.split_last()?;
    let (op, level) = (Op::Next(key), last - 1);
    let count = path_count(random, build, op, true, want, level);
    if level == 1 && random.percent(60) {
        let keys = way.keys(random, build, level, count, Place::Below);
        write_keys(random, build, want, level, keys);
    } else {
        write(random, build, want, level, count, None);
    }
    Some(Slot::open(op, want, path, &[]))
}

/// At its leaf, which has nothing for it: the second way as far as it goes.
pub(crate) fn place_second(random: &mut Random, build: &mut Build, key: u32) -> Option<Slot> {
    let held = random.one(&HELD) + 1;
    let top = draw_top(random, build);
    let mut way = go_down(random, build, Way::from(key, top), 1, held, Place::Top)?;
    way.go_right(random, build, held)?;
    let (&want, beside) = way.second.split_last()?;
    Some(Slot::open(Op::Next(key), want, &way.path, beside))
}

/// The top page of a path: page 0 or any other.
fn draw_top(random: &mut Random, build: &Build) -> u32 {
    if random.percent(50) {
        0
    } else {
        random.from(1, u64::from(build.n) - 1) as u32
    }
}

/// Writes so many pages of a path, the last of a given level. An upper last page leads to one more, not yet written.
fn go_down(
    random: &mut Random,
    build: &mut Build,
    mut way: Way,
    last: u32,
    held: u32,
    top: Place,
) -> Option<Way> {
    for at in 0..held {
        let place = if at == 0 { top } else { Place::Below };
        way.add(random, build, last + held - 1 - at, place)?;
    }
    Some(way)
}

impl Way {
    /// A path that begins at its top.
    fn from(key: u32, top: u32) -> Way {
        Way {
            key,
            path: vec![top],
            second: Vec::new(),
        }
    }

    /// Writes the lowest page of the path; if it is above the leaves, the page it leads to comes behind it.
    fn add(
        &mut self,
        random: &mut Random,
        build: &mut Build,
        level: u32,
        place: Place,
    ) -> Option<()> {
        let page = *self.path.last()?;
        let count = path_count(random, build, Op::Next(self.key), true, page, level);
        for _ in 0..TRIES {
            let keys = self.keys(random, build, level, count, place);
            write_keys(random, build, page, level, keys);
            if level == 1 {
                return Some(());
            }
            let (next, right) = leads(build, page, self.key);
            let is_good = self.is_unused(build, next);
            if is_good && (place == Place::Below || self.is_unused(build, right)) {
                self.path.push(next);
                if place == Place::Top && next != right {
                    self.second.push(right);
                }
                return Some(());
            }
        }
        None
    }

    /// Keys of a path page: below the top all are at most the key, in a leaf below it; in the top page one is above it.
    fn keys(
        &self,
        random: &mut Random,
        build: &Build,
        level: u32,
        count: u32,
        place: Place,
    ) -> Vec<u32> {
        let key = u64::from(self.key);
        let (mut keys, bound) = match place {
            Place::Top if level > 1 => (
                vec![random.from(key + 1, build.keys - 1) as u32],
                build.keys,
            ),
            _ if level > 1 => (Vec::new(), key + 1),
            _ => (Vec::new(), key),
        };
        while keys.len() < count as usize {
            let drawn = random.from(lowest_key(level), bound - 1) as u32;
            if !keys.contains(&drawn) {
                keys.push(drawn);
            }
        }
        keys.truncate(count as usize);
        keys
    }

    /// Whether a page is there and has no place yet.
    fn is_unused(&self, build: &Build, page: u32) -> bool {
        page < build.n && !self.path.contains(&page) && !self.second.contains(&page)
    }

    /// Goes down the second way from the next child to the right, some levels or all.
    fn go_right(&mut self, random: &mut Random, build: &mut Build, top_level: u32) -> Option<()> {
        let most = u64::from(top_level).checked_sub(2)?;
        let beside = if random.percent(50) {
            most
        } else {
            random.from(0, most)
        } as u32;
        for at in 0..=beside {
            let (page, level) = (*self.second.last()?, top_level - 1 - at);
            let first = self.write_second(random, build, page, level)?;
            if at < beside {
                self.second.push(first);
            }
        }
        Some(())
    }

    /// Writes a page of the second way, and gives its first child; a leaf has none.
    fn write_second(
        &self,
        random: &mut Random,
        build: &mut Build,
        page: u32,
        level: u32,
    ) -> Option<u32> {
        let start = page as usize * page_words(build.k);
        for _ in 0..TRIES {
            let count = path_count(random, build, Op::Next(self.key), false, page, level);
            write(random, build, page, level, count, None);
            let first = build.words[start + 2];
            if level == 1 || self.is_unused(build, first) {
                return Some(first);
            }
        }
        None
    }
}
