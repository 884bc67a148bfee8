//! Opening a pool as one would write it without a proof: each page by itself, then down from page 0, with marks and ranges.

use ghazfulit::{numbers, STATE};

use crate::layout::{put, Pages};
use crate::pages::is_page_sound;
use crate::schedule::{plain, with, Answer};

/// Opens words as a pool of n pages of width k; writes every word of the state.
pub fn open(k: u32, n: u32, state: &mut [u32; STATE], words: &[u32]) -> Answer {
    state.fill(0);
    let size = 4 * k.min(numbers::LARGEST_K) as usize + 3;
    let is_in_range =
        (1..=numbers::LARGEST_K).contains(&k) && (1..=numbers::LARGEST_N).contains(&n);
    if !is_in_range || words.len() != n as usize * size {
        return plain(numbers::BAD_POOL);
    }
    for (p, page) in (0..).zip(words.chunks_exact(size)) {
        if !is_page_sound(page, p, k as usize, n) && (p == 0 || !is_zero(page)) {
            return with(numbers::BAD_PAGE_IN_POOL, p);
        }
    }
    let mut walk = Walk {
        words,
        size,
        met: [0; 16],
        count: 0,
    };
    if !walk.hangs(0, words[0], 0, 1 << 32) || walk.count != used(words, size) {
        return plain(numbers::BAD_TREE);
    }
    (state[0], state[1]) = (k, n);
    plain(numbers::OPENED)
}

fn is_zero(page: &[u32]) -> bool {
    page.iter().fold(0, |all, &word| all | word) == 0
}

/// How many pages are not free. Each page is sound by itself, so that one of level 0 is all zeros.
fn used(words: &[u32], size: usize) -> usize {
    let levels = words.iter().step_by(size);
    levels.filter(|&&level| level != 0).count()
}

/// The way down: which pages were met, and how many.
struct Walk<'w> {
    words: &'w [u32],
    size: usize,
    met: Pages,
    count: usize,
}

impl Walk<'_> {
    /// Whether a page hangs right, with all below it: on this level, its keys from `low` on and below `high`. Keys rise, so that the first and
    /// the last of them tell.
    fn hangs(&mut self, p: u32, level: u32, low: u64, high: u64) -> bool {
        let page = &self.words[p as usize * self.size..][..self.size];
        if page[0] != level || put(&mut self.met, p) {
            return false;
        }
        self.count += 1;
        let count = page[1] as usize;
        if level == 1 {
            let first = u64::from(page[2]);
            return count == 0 || (first >= low && u64::from(page[2 * count]) < high);
        }
        let mut left = low;
        for pair in page[2..2 + 2 * count].chunks_exact(2) {
            let right = u64::from(pair[1]);
            if right >= high || !self.hangs(pair[0], level - 1, left, right) {
                return false;
            }
            left = right;
        }
        self.hangs(page[2 + 2 * count], level - 1, left, high)
    }
}
