//! The check of a pool that somebody hands in, as 02 (vii) has it: first each page by itself, then the tree from page 0.
//!
//! The tree is gone through a level at a time: a row has all pages of a level, each with the range that its keys must be in.

use std::collections::BTreeSet;

use crate::answer::Answer;
use crate::page::{is_zero_page, read_page, Page};

/// Where the range of all keys ends.
const END: u64 = 1 << 32;

/// A page that hangs somewhere in the tree, with the range of its keys: from `low` on, below `high`.
#[derive(Clone, Copy)]
struct Hung {
    number: u32,
    low: u64,
    high: u64,
}

/// What the words of a pool are: `Opened`, or why not. There must be as many as n pages of width k have.
pub fn checked(k: u32, n: u32, words: &[u32]) -> Answer {
    let mut pages = Vec::new();
    for number in 0..n {
        let page = read_page(words, k, n, number);
        let is_free = number != 0 && is_zero_page(words, k, number);
        if page.is_none() && !is_free {
            return Answer::BadPageInPool(number);
        }
        pages.push(page);
    }
    if is_tree(&pages) {
        Answer::Opened
    } else {
        Answer::BadTree
    }
}

/// Whether the pages hang from page 0 as one tree, and every other one is all zeros, which is none here.
fn is_tree(pages: &[Option<Page>]) -> bool {
    let numbered = (0..).zip(pages);
    let used = numbered.filter(|(_, page)| page.is_some());
    met(pages) == Some(used.map(|(number, _)| number).collect())
}

/// The numbers of all pages that hang from page 0; none where one is out of its place or hangs in two.
fn met(pages: &[Option<Page>]) -> Option<BTreeSet<u32>> {
    let mut met = BTreeSet::new();
    let mut row = vec![Hung {
        number: 0,
        low: 0,
        high: END,
    }];
    // page 0 is no free page, so that it says how many levels there are
    for level in (1..=pages[0].as_ref()?.level).rev() {
        let mut below = Vec::new();
        for hung in row {
            let page = pages[hung.number as usize].as_ref()?;
            if page.level != level || !is_within(page, hung) || !met.insert(hung.number) {
                return None;
            }
            below.extend(children(page, hung));
        }
        row = below;
    }
    Some(met)
}

/// Whether all keys of a page are in its range.
fn is_within(page: &Page, hung: Hung) -> bool {
    let mut keys = page.keys.iter();
    keys.all(|&key| (hung.low..hung.high).contains(&u64::from(key)))
}

/// The children of an upper page: "keys under p(i-1) are less than ri; keys under pi are at least ri".
fn children(page: &Page, hung: Hung) -> Vec<Hung> {
    if page.is_leaf() {
        return Vec::new();
    }
    let keys = page.keys.iter().map(|&key| u64::from(key));
    let bounds: Vec<u64> = [hung.low]
        .into_iter()
        .chain(keys)
        .chain([hung.high])
        .collect();
    let ranges = bounds.windows(2);
    let hang = |(&number, range): (&u32, &[u64])| Hung {
        number,
        low: range[0],
        high: range[1],
    };
    page.with.iter().zip(ranges).map(hang).collect()
}
