//! Pools that somebody hands in: the words of a run with something changed, so that they are a tree still, or just no more.

use draw::Random;
use twin::{page_words, BLANK_KEY};

/// A pool's words, to be changed.
struct Handed {
    k: u32,
    n: u32,
    words: Vec<u32>,
}

impl Handed {
    /// Where the pages begin that are on one of these levels.
    fn pages(&self, levels: std::ops::RangeInclusive<u32>) -> Vec<usize> {
        let starts = (0..self.words.len()).step_by(page_words(self.k));
        let is_meant = |start: &usize| levels.contains(&self.words[*start]);
        starts.filter(is_meant).collect()
    }

    /// Every page that is not free, and the free ones but page 0.
    fn used(&self) -> Vec<usize> {
        self.pages(1..=u32::MAX)
    }

    fn free(&self) -> Vec<usize> {
        let all = self.pages(0..=0);
        all.into_iter().filter(|&start| start > 0).collect()
    }

    /// Where a page has its keys.
    fn keys(&self, start: usize) -> Vec<usize> {
        let count = self.words[start + 1].min(2 * self.k) as usize;
        let first = if self.words[start] == 1 { 2 } else { 3 };
        (0..count).map(|i| start + first + 2 * i).collect()
    }

    /// Where an upper page has its pointers.
    fn pointers(&self, start: usize) -> Vec<usize> {
        let count = self.words[start + 1].min(2 * self.k) as usize;
        (0..=count).map(|i| start + 2 + 2 * i).collect()
    }

    /// Where all upper pages have their pointers: those on level 2 alone, or on every level.
    fn all_pointers(&self, highest: u32) -> Vec<usize> {
        let upper = self.pages(2..=highest).into_iter();
        upper.flat_map(|start| self.pointers(start)).collect()
    }

    fn all_keys(&self) -> Vec<usize> {
        let used = self.used().into_iter();
        used.flat_map(|start| self.keys(start)).collect()
    }

    /// The words of the page that is pointed to from a place, if there is one.
    fn child(&mut self, pointer: usize) -> Option<&mut [u32]> {
        let size = page_words(self.k);
        let start = self.words[pointer] as usize * size;
        self.words.get_mut(start..start + size)
    }
}

/// One of some places, if there is one.
fn pick(random: &mut Random, places: &[usize]) -> Option<usize> {
    (!places.is_empty()).then(|| random.one(places))
}

/// A way to change a pool; where it finds nothing to change, the pool stays.
type Change = fn(&mut Random, &mut Handed) -> Option<()>;

/// Those that keep each page sound by itself as a rule come first.
const CHANGES: [Change; 20] = [
    move_key,
    end_key,
    end_key,
    bounded_key,
    bounded_key,
    blank_reference,
    move_pointer,
    exchange_pointers,
    hang_twice,
    hang_twice,
    shorten,
    exchange_pages,
    copy_page,
    move_page,
    zero_page,
    level,
    blank_lot,
    some_unused,
    free_word,
    any_word,
];

/// The words of a pool with one to three things changed, or none.
pub fn handed(random: &mut Random, k: u32, n: u32, words: &[u32]) -> Vec<u32> {
    let words = words.to_vec();
    let mut handed = Handed { k, n, words };
    for _ in 0..random.one(&[0, 1, 1, 1, 1, 1, 2, 3]) {
        let change = random.one(&CHANGES);
        if change(random, &mut handed).is_none() {
            any_word(random, &mut handed);
        }
    }
    handed.words
}

/// A key one more or one less, or like another key of the pool.
fn move_key(random: &mut Random, pool: &mut Handed) -> Option<()> {
    let keys = pool.all_keys();
    let at = pick(random, &keys)?;
    let other = pool.words[random.one(&keys)];
    let was = pool.words[at];
    pool.words[at] = random.one(&[was.wrapping_add(1), was.wrapping_sub(1), other]);
    Some(())
}

/// The last key of a page higher, or its first one lower, so that it still rises.
fn end_key(random: &mut Random, pool: &mut Handed) -> Option<()> {
    let page = pick(random, &pool.used())?;
    let keys = pool.keys(page);
    let (&first, &last) = (keys.first()?, keys.last()?);
    if random.percent(50) {
        let higher = pool.words[last].saturating_add(random.from(1, 40) as u32);
        pool.words[last] = random.one(&[higher, u32::MAX]);
    } else {
        let lower = pool.words[first].saturating_sub(random.from(1, 40) as u32);
        // the lowest that a lot can have
        pool.words[first] = random.one(&[lower.max(1), 1]);
    }
    Some(())
}

/// The last key of a leaf at the end of its range, or just below it.
fn bounded_key(random: &mut Random, pool: &mut Handed) -> Option<()> {
    let leaf = pick(random, &pool.pages(1..=1))?;
    let last = *pool.keys(leaf).last()?;
    let upper = pool.pages(2..=u32::MAX).into_iter();
    let references = upper.flat_map(|start| pool.keys(start));
    let above = references.map(|at| pool.words[at]);
    let end = above.filter(|&key| key > pool.words[last]).min()?;
    pool.words[last] = end - random.below(2) as u32;
    Some(())
}

/// The first reference key of an upper page is that of a blank tag: each page is sound by itself then.
fn blank_reference(random: &mut Random, pool: &mut Handed) -> Option<()> {
    let page = pick(random, &pool.pages(2..=u32::MAX))?;
    let first = *pool.keys(page).first()?;
    pool.words[first] = BLANK_KEY;
    Some(())
}

/// The first key of a leaf is that of a blank tag, or that of two, so that which one is named shows.
fn blank_lot(random: &mut Random, pool: &mut Handed) -> Option<()> {
    let leaves = pool.pages(1..=1);
    for _ in 0..random.from(1, 2) {
        let page = pick(random, &leaves)?;
        let first = *pool.keys(page).first()?;
        pool.words[first] = BLANK_KEY;
    }
    Some(())
}

/// A pointer to another page.
fn move_pointer(random: &mut Random, pool: &mut Handed) -> Option<()> {
    let at = pick(random, &pool.all_pointers(u32::MAX))?;
    pool.words[at] = random.below(u64::from(pool.n) + 1) as u32;
    Some(())
}

/// Two pages, each in the other's place.
fn exchange_pointers(random: &mut Random, pool: &mut Handed) -> Option<()> {
    let pointers = pool.all_pointers(random.one(&[2, u32::MAX]));
    let one = pick(random, &pointers)?;
    pool.words.swap(one, random.one(&pointers));
    Some(())
}

/// A leaf hangs where another one did, too; that one is free now.
fn hang_twice(random: &mut Random, pool: &mut Handed) -> Option<()> {
    let pointers = pool.all_pointers(2);
    let (one, other) = (pick(random, &pointers)?, random.one(&pointers));
    if pool.words[one] == pool.words[other] {
        return None;
    }
    pool.child(one)?.fill(0);
    pool.words[one] = pool.words[other];
    Some(())
}

/// A page without its last pair: a leaf has lost a lot, an upper page all that hung there.
fn shorten(random: &mut Random, pool: &mut Handed) -> Option<()> {
    let page = pick(random, &pool.used())?;
    let last = *pool.keys(page).last()?;
    pool.words[last..last + 2].fill(0);
    pool.words[page + 1] -= 1;
    Some(())
}

/// Two pages, each with the other's words.
fn exchange_pages(random: &mut Random, pool: &mut Handed) -> Option<()> {
    let used = pool.used();
    let (one, other) = (pick(random, &used)?, random.one(&used));
    for i in 0..page_words(pool.k) {
        pool.words.swap(one + i, other + i);
    }
    Some(())
}

/// A page's words in a free page too.
fn copy_page(random: &mut Random, pool: &mut Handed) -> Option<()> {
    let (from, to) = (pick(random, &pool.used())?, pick(random, &pool.free())?);
    let size = page_words(pool.k);
    pool.words.copy_within(from..from + size, to);
    Some(())
}

/// A page's words in a free page instead, and the pointer with them: it is a tree still.
fn move_page(random: &mut Random, pool: &mut Handed) -> Option<()> {
    let pointer = pick(random, &pool.all_pointers(u32::MAX))?;
    let (to, size) = (pick(random, &pool.free())?, page_words(pool.k));
    let from = pool.words[pointer] as usize * size;
    pool.words.get(from..from + size)?;
    pool.words.copy_within(from..from + size, to);
    pool.words[from..from + size].fill(0);
    pool.words[pointer] = (to / size) as u32;
    Some(())
}

/// A page all zeros.
fn zero_page(random: &mut Random, pool: &mut Handed) -> Option<()> {
    let page = pick(random, &pool.used())?;
    let size = page_words(pool.k);
    pool.words[page..page + size].fill(0);
    Some(())
}

/// A level one more or one less, often that of page 0: all that hangs from it is on another level then.
fn level(random: &mut Random, pool: &mut Handed) -> Option<()> {
    let any = pick(random, &pool.used())?;
    let page = random.one(&[0, any, any]);
    let was = pool.words[page];
    pool.words[page] = random.one(&[was.wrapping_add(1), was.wrapping_sub(1)]);
    Some(())
}

/// The last word of two pages or three, so that which one is named shows.
fn some_unused(random: &mut Random, pool: &mut Handed) -> Option<()> {
    let used = pool.used();
    for _ in 0..random.from(2, 3) {
        let page = pick(random, &used)?;
        pool.words[page + page_words(pool.k) - 1] = 1;
    }
    Some(())
}

/// One word of a free page.
fn free_word(random: &mut Random, pool: &mut Handed) -> Option<()> {
    let page = pick(random, &pool.free())?;
    let word = random.below(page_words(pool.k) as u64) as usize;
    pool.words[page + word] = random.one(&[1, 1, 2, 7, u32::MAX]);
    Some(())
}

/// Any word otherwise, or none where there are none.
fn any_word(random: &mut Random, pool: &mut Handed) -> Option<()> {
    let all: Vec<usize> = (0..pool.words.len()).collect();
    let at = pick(random, &all)?;
    let was = pool.words[at];
    let near = [was.wrapping_add(1), was.wrapping_sub(1)];
    let limits = [0, 1, 10, 11, 2 * pool.k + 1, pool.n, u32::MAX];
    pool.words[at] = match random.below(3) {
        0 => random.one(&near),
        1 => random.below(u64::from(pool.n) + 1) as u32,
        _ => random.one(&limits),
    };
    Some(())
}
