//! An index: its state, and the words of its pool, owned or lent.

use std::fmt::{self, Debug, Formatter};

use crate::answer::{done, reported, stepped, Op, Refusal, Report, Step};
use crate::lots::Lots;
use crate::numbers::{LARGEST_K, LARGEST_N, VERSION};
use crate::opening::NotOpened;
use crate::pool_words;
use crate::raw::{self, STATE};

/// The pool's words.
enum Words<'w> {
    Owned(Vec<u32>),
    Lent(&'w mut [u32]),
}

impl Words<'_> {
    fn get(&self) -> &[u32] {
        match self {
            Words::Owned(words) => words,
            Words::Lent(words) => words,
        }
    }

    fn get_mut(&mut self) -> &mut [u32] {
        match self {
            Words::Owned(words) => words,
            Words::Lent(words) => words,
        }
    }
}

/// An index of lots.
///
/// Every way to have one panics where the archive that is linked is of another version than this crate
/// ([`numbers::VERSION`](crate::numbers::VERSION)): the numbers would not mean the same to both. That is an error of the build.
pub struct Index<'w> {
    state: [u32; STATE],
    words: Words<'w>,
}

/// Its sizes and how many slots are open; not its words, which may be some 70,000.
impl Debug for Index<'_> {
    fn fmt(&self, f: &mut Formatter) -> fmt::Result {
        let [k, n, open, ..] = &self.state;
        f.debug_struct("Index")
            .field("k", k)
            .field("n", n)
            .field("open", open)
            .field("words", &self.words.get().len())
            .finish_non_exhaustive()
    }
}

impl Index<'static> {
    /// A fresh pool of `n` pages (1 to 1,024) of width `k` (1 to 16), in words of its own.
    ///
    /// ```
    /// # use ghazfulit::{Index, Refusal};
    /// assert!(Index::new(16, 1024).is_ok());
    /// assert_eq!(Index::new(17, 1).err(), Some(Refusal::BadPool));
    /// ```
    pub fn new(k: u32, n: u32) -> Result<Index<'static>, Refusal> {
        // out of range there is nothing to make room for: the call refuses
        let is_in_range = k <= LARGEST_K && n <= LARGEST_N;
        let length = if is_in_range { pool_words(k, n) } else { 0 };
        make(k, n, Words::Owned(vec![0; length]))
    }

    /// The words of a pool that somebody hands in, say from a file: `n` pages of width `k`. They are opened exactly if they form the tree from
    /// page 0, no page hangs in two places, no lot has number 0, and every other page is all zeros; who has written them does not matter. Every
    /// slot is closed then. Words that are not opened come back as they were, with the refusal.
    ///
    /// ```
    /// # use ghazfulit::{Index, NotOpened, Op, Refusal, Step};
    /// let mut index = Index::new(1, 3)?;
    /// index.begin(0, Op::insert(10, 7))?;
    /// assert_eq!(index.step(0)?, Step::Inserted);
    /// let saved = index.into_words();
    /// // kept somewhere, and taken up again
    /// let mut index = Index::open(1, 3, saved)?;
    /// index.begin(0, Op::search(10))?;
    /// assert_eq!(index.step(0)?, Step::Found(7));
    /// // one word changed, in page 2
    /// let mut words = index.into_words();
    /// words[20] = 1;
    /// let refused = Index::open(1, 3, words).unwrap_err();
    /// assert_eq!(refused.refusal, Refusal::BadPageInPool(2));
    /// assert_eq!(refused.to_string(), "page 2 is not sound by itself");
    /// assert_eq!(refused.words[20], 1);
    /// # Ok::<(), Refusal>(())
    /// ```
    pub fn open(k: u32, n: u32, words: Vec<u32>) -> Result<Index<'static>, NotOpened> {
        match opened(k, n, &words) {
            Ok(state) => Ok(Index::held(state, Words::Owned(words))),
            Err(refusal) => Err(NotOpened { refusal, words }),
        }
    }

    /// Any state with any words of its own: what is not sound is refused call by call. Words that an archive of another version left may mean
    /// something else to this one.
    ///
    /// ```
    /// # use ghazfulit::{Index, Op, Refusal, Step};
    /// let mut index = Index::new(1, 3)?;
    /// index.begin(0, Op::insert(10, 7))?;
    /// let (state, words) = index.into_parts();
    /// // kept somewhere, and taken up again
    /// let mut index = Index::from_parts(state, words);
    /// assert_eq!(index.step(0)?, Step::Inserted);
    /// # Ok::<(), Refusal>(())
    /// ```
    pub fn from_parts(state: [u32; STATE], words: Vec<u32>) -> Index<'static> {
        Index::held(state, Words::Owned(words))
    }
}

impl<'w> Index<'w> {
    /// A fresh pool in lent words, which must be `pool_words(k, n)`.
    ///
    /// ```
    /// # use ghazfulit::{pool_words, Index, Op, Refusal, Step};
    /// let mut words = vec![0; pool_words(1, 1)];
    /// let mut index = Index::over(1, 1, &mut words)?;
    /// index.begin(0, Op::insert(10, 7))?;
    /// assert_eq!(index.step(0)?, Step::Inserted);
    /// assert_eq!(words, [1, 1, 10, 7, 0, 0, 0]);
    /// # Ok::<(), Refusal>(())
    /// ```
    pub fn over(k: u32, n: u32, words: &'w mut [u32]) -> Result<Index<'w>, Refusal> {
        make(k, n, Words::Lent(words))
    }

    /// Lent words opened as a pool, as [`Index::open`] does. Where they are refused, their lender has them as they were.
    ///
    /// ```
    /// # use ghazfulit::{Index, Refusal};
    /// let mut words = [1, 1, 10, 7, 0, 0, 0];
    /// assert!(Index::open_over(1, 1, &mut words).is_ok());
    /// words[0] = 2;
    /// // a page above the leaves, and there is none below it
    /// assert_eq!(Index::open_over(1, 1, &mut words).err(), Some(Refusal::BadPageInPool(0)));
    /// ```
    pub fn open_over(k: u32, n: u32, words: &'w mut [u32]) -> Result<Index<'w>, Refusal> {
        let state = opened(k, n, words)?;
        Ok(Index::held(state, Words::Lent(words)))
    }

    /// Any state with any lent words: what is not sound is refused call by call.
    pub fn from_words(state: [u32; STATE], words: &'w mut [u32]) -> Index<'w> {
        Index::held(state, Words::Lent(words))
    }

    /// The words of the state and of the pool. Those of a pool that was lent are copied: its lender has them too.
    pub fn into_parts(self) -> ([u32; STATE], Vec<u32>) {
        let words = match self.words {
            Words::Owned(words) => words,
            Words::Lent(words) => words.to_vec(),
        };
        (self.state, words)
    }

    /// The words of the pool, to be kept and opened again ([`Index::open`]). What is open in a slot is not in them: it has done nothing to
    /// the pages yet. Those of a pool that was lent are copied.
    pub fn into_words(self) -> Vec<u32> {
        self.into_parts().1
    }

    /// A state with words, held to the archive.
    fn held(state: [u32; STATE], words: Words<'w>) -> Index<'w> {
        hold_version(raw::version());
        Index { state, words }
    }

    /// Begins an operation in a closed slot. An update chooses its [`Way`](crate::Way) here. Key 0 is that of a blank tag: only a next may
    /// begin with it, and asks for the first lot of all.
    ///
    /// ```
    /// # use ghazfulit::{Index, Op, Refusal, Step};
    /// let mut index = Index::new(1, 3)?;
    /// assert_eq!(index.begin(0, Op::insert(0, 7)), Err(Refusal::BadKey));
    /// index.begin(0, Op::next(0))?;
    /// assert_eq!(index.step(0)?, Step::None);
    /// # Ok::<(), Refusal>(())
    /// ```
    pub fn begin(&mut self, slot: u32, op: Op) -> Result<(), Refusal> {
        let (kind, key, information) = op.numbers();
        done(raw::begin(&mut self.state, slot, kind, key, information))
    }

    /// Takes one lock more, if it is to be had, and does what follows.
    pub fn step(&mut self, slot: u32) -> Result<Step, Refusal> {
        stepped(raw::step(&mut self.state, self.words.get_mut(), slot))
    }

    /// Steps a slot until its operation is answered, or has to wait for another slot: then `Waiting` is told, and the slot stays
    /// open. It ends: no operation takes more than 38 steps that are granted, as a deletion by the third way may, with 19 locks and as many
    /// conversions.
    ///
    /// ```
    /// # use ghazfulit::{Index, Op, Refusal, Step};
    /// let mut index = Index::new(1, 3)?;
    /// for key in [10, 20, 30] {
    ///     index.begin(0, Op::insert(key, 7))?;
    ///     assert_eq!(index.finish(0)?, Step::Inserted);
    /// }
    /// index.begin(0, Op::search(20))?;
    /// assert_eq!(index.finish(0)?, Step::Found(7));
    /// # Ok::<(), Refusal>(())
    /// ```
    pub fn finish(&mut self, slot: u32) -> Result<Step, Refusal> {
        loop {
            let step = self.step(slot)?;
            if step != Step::Moved {
                return Ok(step);
            }
        }
    }

    /// The lots from a key on, in the order of their keys, asked for in a closed slot. Each lot is a question of its own
    /// ([`Lots`]): what changes between two of them shows in those that follow.
    ///
    /// ```
    /// # use ghazfulit::{Index, Op, Stop};
    /// let mut index = Index::new(1, 3)?;
    /// for key in [30, 10, 20] {
    ///     index.begin(0, Op::insert(key, key + 1))?;
    ///     index.finish(0)?;
    /// }
    /// let mut keys = Vec::new();
    /// for lot in index.lots(0, 11) {
    ///     keys.push(lot?.key);
    /// }
    /// assert_eq!(keys, [20, 30]);
    /// # Ok::<(), Stop>(())
    /// ```
    pub fn lots(&mut self, slot: u32, key: u32) -> Lots<'_, 'w> {
        Lots::from(self, slot, key)
    }

    /// Who holds a page.
    ///
    /// ```
    /// # use ghazfulit::{Index, Lock, Op, Refusal, Way};
    /// let mut index = Index::new(1, 3)?;
    /// assert_eq!(index.report(0)?.held, None);
    /// assert_eq!(index.report(3), Err(Refusal::BadPage));
    /// for key in [10, 20, 30] {
    ///     index.begin(0, Op::insert(key, 7))?;
    ///     index.finish(0)?;
    /// }
    /// // a search and an update by the second way on page 0: the stronger lock is told, and the lower slot
    /// for (slot, op) in [(0, Op::search(10)), (1, Op::delete(20).by(Way::Second))] {
    ///     index.begin(slot, op)?;
    ///     index.step(slot)?;
    /// }
    /// let report = index.report(0)?;
    /// assert_eq!((report.held, report.holders), (Some((Lock::UpdaterRho, 0)), 2));
    /// # Ok::<(), Refusal>(())
    /// ```
    pub fn report(&self, page: u32) -> Result<Report, Refusal> {
        reported(raw::report(&self.state, page))
    }

    /// The words of the state.
    pub fn state(&self) -> &[u32; STATE] {
        &self.state
    }

    /// The words of the pool; at any moment they could be opened ([`Index::open`]).
    pub fn words(&self) -> &[u32] {
        self.words.get()
    }
}

/// Makes a fresh pool in these words.
fn make(k: u32, n: u32, words: Words) -> Result<Index, Refusal> {
    let mut index = Index::held([0; STATE], words);
    done(raw::make(k, n, &mut index.state, index.words.get_mut()))?;
    Ok(index)
}

/// The state beside these words, if they are a pool.
fn opened(k: u32, n: u32, words: &[u32]) -> Result<[u32; STATE], Refusal> {
    hold_version(raw::version());
    let mut state = [0; STATE];
    done(raw::open(k, n, &mut state, words))?;
    Ok(state)
}

/// Refuses an archive of another version than the header that this crate was built with.
fn hold_version(archive: u32) {
    assert!(
        archive == VERSION,
        "the archive is of version {archive}, and this crate of version {VERSION}"
    );
}

#[cfg(test)]
mod tests {
    use super::*;

    #[test]
    fn the_archive_is_of_this_version() {
        assert_eq!(raw::version(), VERSION);
    }

    #[test]
    #[should_panic = "the archive is of version 1, and this crate of version 7"]
    fn another_version_is_refused() {
        hold_version(1);
    }
}
