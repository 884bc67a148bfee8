//! A pool in which every page has the same number of pairs, with as many levels as 1,024 pages allow.

use ghazfulit::numbers::{FOUND, NOT_FOUND};
use ghazfulit::STATE;

use crate::ways::{Way, HALVING};

/// The pool's words, and how many levels and lots it has. Lot i has key 2i + 1 and information i; no lot has an even key.
pub struct Pool {
    size: usize,
    count: usize,
    words: Vec<u32>,
    state: [u32; STATE],
    next: u32,
    pub levels: u32,
    pub lots: u32,
}

impl Pool {
    /// With so many pairs in each page.
    pub fn of(k: usize, count: usize) -> Pool {
        let pages = |levels| (0..levels).map(|level| (count + 1).pow(level)).sum();
        let levels = (1..=10).rev().find(|&levels| pages(levels) <= 1024);
        let levels = levels.expect("one level at least");
        let (n, size): (usize, usize) = (pages(levels), 4 * k + 3);
        let mut words = vec![0; n * size];
        let state = HALVING.make(k as u32, n as u32, &mut words);
        let (next, lots) = (1, 0);
        let mut pool = Pool {
            size,
            count,
            words,
            state,
            next,
            levels,
            lots,
        };
        pool.lay(0, levels);
        pool
    }

    /// Lays a page and all below it, lots in order.
    fn lay(&mut self, page: u32, level: u32) {
        let mut own = vec![level, self.count as u32];
        if level == 1 {
            for _ in 0..self.count {
                own.extend([2 * self.lots + 1, self.lots]);
                self.lots += 1;
            }
        } else {
            for child in 0..=self.count {
                if child > 0 {
                    own.push(2 * self.lots + 1);
                }
                own.push(self.next);
                self.next += 1;
                self.lay(self.next - 1, level - 1);
            }
        }
        let start = page as usize * self.size;
        self.words[start..start + own.len()].copy_from_slice(&own);
    }

    /// Searches for all keys, one after the other: a sum of numbers and informations answered.
    pub fn search_all(&mut self, way: &Way, keys: &[u32]) -> u64 {
        let mut sum = 0;
        for &key in keys {
            let answer = way.search(&mut self.state, &mut self.words, key);
            sum += u64::from(answer[0]) + u64::from(answer[1]);
        }
        sum
    }

    /// What that sum must be.
    pub fn sum_of(keys: &[u32]) -> u64 {
        let found = |key: u32| key % 2 == 1;
        let answered = |&key: &u32| {
            if found(key) {
                FOUND + key / 2
            } else {
                NOT_FOUND
            }
        };
        keys.iter().map(|key| u64::from(answered(key))).sum()
    }
}
