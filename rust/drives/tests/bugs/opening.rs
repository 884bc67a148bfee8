//! Bugs of opening a pool. Those of the check are put into one of its own, which without them says what the twin says.

use drive_twin::Calls;
use twin::{make_lent, open_lent, page_words, read_page, words_of, Answer, Page, State, STATE};

/// An opening that something is wrong with.
#[derive(Clone, Copy, Debug, PartialEq, Eq)]
pub enum OpenBug {
    /// A page that was met before is passed over.
    MetPassedOver,
    /// A key is held to the reference keys of its father alone.
    RangesNotHandedDown,
    /// Keys are not held to ranges at all.
    NoRanges,
    /// A key at the end of its range passes.
    EndIncluded,
    /// A key at the beginning of its range does not pass.
    BeginningLeftOut,
    /// A reference key must be the first key to its right.
    NoLooseKeys,
    /// A child may be any level lower.
    LevelsLeftOut,
    /// A page that is not met may be anything sound.
    UnmetNotLookedAt,
    /// A page of level 0 is free, whatever else it says.
    FreeByLevel,
    /// Pages that are not met are not tested at all.
    OnlyMetTested,
    /// Page 0 may be all zeros, like any other page.
    ZeroRoot,
    /// Page 0 has k pairs at least, like any other page.
    FullRoot,
    /// The first bad page on the way from page 0 is named.
    FirstMetNamed,
    /// The highest bad page is named.
    HighestNamed,
    /// The tree is looked at first.
    TreeFirst,
    /// A refusal clears the page that it names.
    RefusalWrites,
    /// A refusal leaves the state as it was.
    StateLeft,
    /// An accepted pool leaves the slots as they were.
    SlotsLeft,
    /// An accepted pool is made anew.
    MadeAnew,
    /// There may be more words than the pages have.
    LengthNotLookedAt,
}

/// All of them.
pub const OPEN_BUGS: [OpenBug; 20] = [
    OpenBug::MetPassedOver,
    OpenBug::RangesNotHandedDown,
    OpenBug::NoRanges,
    OpenBug::EndIncluded,
    OpenBug::BeginningLeftOut,
    OpenBug::NoLooseKeys,
    OpenBug::LevelsLeftOut,
    OpenBug::UnmetNotLookedAt,
    OpenBug::FreeByLevel,
    OpenBug::OnlyMetTested,
    OpenBug::ZeroRoot,
    OpenBug::FullRoot,
    OpenBug::FirstMetNamed,
    OpenBug::HighestNamed,
    OpenBug::TreeFirst,
    OpenBug::RefusalWrites,
    OpenBug::StateLeft,
    OpenBug::SlotsLeft,
    OpenBug::MadeAnew,
    OpenBug::LengthNotLookedAt,
];

impl Calls for OpenBug {
    fn open(&self, k: u32, n: u32, state: &mut [u32; STATE], words: &mut [u32]) -> Answer {
        let before = *state;
        let answer = match Check::of(Some(*self), k, n, words) {
            None => Answer::BadPool,
            Some(check) => check.answer(),
        };
        *state = match answer {
            Answer::Opened => words_of(&State::empty(k, n)),
            _ => [0; STATE],
        };
        match (self, answer) {
            (OpenBug::RefusalWrites, Answer::BadPageInPool(page)) => {
                let start = page as usize * page_words(k);
                words[start..start + page_words(k)].fill(0);
            }
            (OpenBug::StateLeft, Answer::BadPageInPool(_) | Answer::BadTree) => *state = before,
            (OpenBug::SlotsLeft, Answer::Opened) => state[2..].copy_from_slice(&before[2..]),
            (OpenBug::MadeAnew, Answer::Opened) => _ = make_lent(k, n, state, words),
            _ => {}
        }
        answer
    }
}

/// An opening with no bug, for the test that the check itself says what the twin says.
#[derive(Clone, Copy, Debug)]
pub struct NoBug;

impl Calls for NoBug {
    fn open(&self, k: u32, n: u32, state: &mut [u32; STATE], words: &mut [u32]) -> Answer {
        let answer = Check::of(None, k, n, words).map_or(Answer::BadPool, |check| check.answer());
        assert_eq!(open_lent(k, n, state, words), answer);
        answer
    }
}

/// A check: the pages, from page 0 down, one below the other.
struct Check<'w> {
    bug: Option<OpenBug>,
    k: u32,
    n: u32,
    words: &'w [u32],
}

/// What a page must be in its place.
#[derive(Clone, Copy)]
struct Place {
    level: u32,
    low: u64,
    high: u64,
}

impl Check<'_> {
    /// None where k, N or the number of words is out of range.
    fn of(bug: Option<OpenBug>, k: u32, n: u32, words: &[u32]) -> Option<Check<'_>> {
        let is_in_range = (1..=16).contains(&k) && (1..=1024).contains(&n);
        let length = if is_in_range {
            n as usize * page_words(k)
        } else {
            0
        };
        let is_long = bug == Some(OpenBug::LengthNotLookedAt) && words.len() >= length;
        let fits = is_in_range && (words.len() == length || is_long);
        fits.then_some(Check { bug, k, n, words })
    }

    fn has(&self, bug: OpenBug) -> bool {
        self.bug == Some(bug)
    }

    fn part(&self, number: u32) -> &[u32] {
        &self.words[number as usize * page_words(self.k)..][..page_words(self.k)]
    }

    fn page(&self, number: u32) -> Option<Page> {
        let page = read_page(self.words, self.k, self.n, number)?;
        let is_short = number == 0 && page.count() < self.k as usize;
        (!is_short || !self.has(OpenBug::FullRoot)).then_some(page)
    }

    /// Whether a page is all zeros and may be.
    fn is_free(&self, number: u32) -> bool {
        let part = self.part(number);
        (number > 0 || self.has(OpenBug::ZeroRoot))
            && part[0] == 0
            && (self.has(OpenBug::FreeByLevel) || part.iter().all(|&word| word == 0))
    }

    /// The pages that are not sound by themselves, lowest first.
    fn bad(&self) -> Vec<u32> {
        let is_bad = |number: &u32| self.page(*number).is_none() && !self.is_free(*number);
        (0..self.n).filter(is_bad).collect()
    }

    /// The page that is named, if one is.
    fn named(&self, met: &[u32]) -> Option<u32> {
        let bad = self.bad();
        match self.bug {
            Some(OpenBug::FirstMetNamed) => {
                let mut first = met.iter().copied().filter(|number| bad.contains(number));
                first.next().or(bad.first().copied())
            }
            Some(OpenBug::OnlyMetTested) => bad.into_iter().find(|number| met.contains(number)),
            Some(OpenBug::HighestNamed) => bad.last().copied(),
            _ => bad.first().copied(),
        }
    }

    fn answer(&self) -> Answer {
        let mut met = Vec::new();
        let whole = Place {
            level: self.words[0],
            low: 0,
            high: 1 << 32,
        };
        let is_free = self.has(OpenBug::ZeroRoot) && self.is_free(0);
        let hangs = is_free || self.hangs(0, whole, &mut met);
        let is_unmet = |number: &u32| !met.contains(number);
        let passes = |number: u32| {
            self.is_free(number)
                || self.has(OpenBug::UnmetNotLookedAt)
                || self.has(OpenBug::OnlyMetTested)
        };
        let is_tree = hangs && (0..self.n).filter(is_unmet).all(passes);
        match self.named(&met) {
            Some(_) if self.has(OpenBug::TreeFirst) && !is_tree => Answer::BadTree,
            Some(page) => Answer::BadPageInPool(page),
            None if is_tree => Answer::Opened,
            None => Answer::BadTree,
        }
    }

    /// Whether a page hangs right in its place, and all below it; what is met is written down.
    fn hangs(&self, number: u32, place: Place, met: &mut Vec<u32>) -> bool {
        if met.contains(&number) {
            return self.has(OpenBug::MetPassedOver);
        }
        met.push(number);
        let Some(page) = self.page(number) else {
            return false;
        };
        let is_lower = self.has(OpenBug::LevelsLeftOut) && page.level < place.level;
        let is_right = page.level == place.level || is_lower;
        let is_within = page.keys.iter().all(|&key| self.is_in(key, place));
        // all children are met, also behind one that is wrong
        let mut hang = is_right && is_within;
        for (i, &child) in page.with.iter().enumerate().filter(|_| !page.is_leaf()) {
            let below = self.below(&page, i, place);
            hang &= self.is_tight(&page, i, child) && self.hangs(child, below, met);
        }
        hang
    }

    /// Whether a key is in the range of its place.
    fn is_in(&self, key: u32, place: Place) -> bool {
        let key = u64::from(key);
        let begins = match self.bug {
            Some(OpenBug::BeginningLeftOut) => key > place.low || place.low == 0,
            _ => key >= place.low,
        };
        let ends = match self.bug {
            Some(OpenBug::EndIncluded) => key <= place.high,
            _ => key < place.high,
        };
        self.has(OpenBug::NoRanges) || (begins && ends)
    }

    /// The place of a child.
    fn below(&self, page: &Page, i: usize, place: Place) -> Place {
        let whole = self.has(OpenBug::RangesNotHandedDown);
        let (low, high) = if whole {
            (0, 1 << 32)
        } else {
            (place.low, place.high)
        };
        let key = |i: usize| page.keys.get(i).map(|&key| u64::from(key));
        Place {
            level: page.level - 1,
            low: i.checked_sub(1).and_then(key).unwrap_or(low),
            high: key(i).unwrap_or(high),
        }
    }

    /// Whether the reference key left of a child that is a leaf is its first key, where that is asked.
    fn is_tight(&self, page: &Page, i: usize, child: u32) -> bool {
        if !self.has(OpenBug::NoLooseKeys) || i == 0 {
            return true;
        }
        let leaf = self.page(child).filter(Page::is_leaf);
        leaf.is_none_or(|leaf| leaf.keys.first() == Some(&page.keys[i - 1]))
    }
}
