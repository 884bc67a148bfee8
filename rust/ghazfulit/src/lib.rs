//! The proved index of lots, for Rust.
//!
//! Lots have a key and information. Up to 16 operations go on at once, each in a slot, and each advances by one lock
//! whenever its slot is stepped. What every call answers, and every word that it leaves, is fixed by definitions and
//! proved; this crate only hands the words over. `docs/CALLS.md` has every call with all its answers.
//!
//! ```
//! use ghazfulit::{Index, Op, Step, Stop};
//!
//! fn main() -> Result<(), Stop> {
//!     let mut index = Index::new(16, 1024)?; // 1,024 pages, up to 32 lots in each
//!     index.begin(0, Op::insert(12, 3))?;
//!     index.begin(1, Op::search(12))?;
//!     assert_eq!(index.step(1)?, Step::Waiting); // slot 0 asked first, and is to change the page
//!     assert_eq!(index.step(0)?, Step::Inserted);
//!     assert_eq!(index.finish(1)?, Step::Found(3)); // steps it to its end
//!     index.lots(1, 10).for_each(|lot| println!("{lot:?}")); // the lots from 10 on
//!     Ok(())
//! }
//! ```
//!
//! The other questions, each in a slot of its own or one after the other in the same:
//!
//! ```
//! use ghazfulit::{Index, Op, Step};
//!
//! let mut index = Index::new(2, 64)?;
//! index.begin(0, Op::insert(12, 3))?;
//! assert_eq!(index.step(0)?, Step::Inserted);
//! index.begin(1, Op::next(10))?;
//! assert_eq!(index.step(1)?, Step::Next { key: 12, information: 3 });
//! index.begin(0, Op::regrade(12, 4))?;
//! assert_eq!(index.step(0)?, Step::Regraded(3));
//! index.begin(0, Op::delete(12))?;
//! assert_eq!(index.step(0)?, Step::Deleted(4));
//! # Ok::<(), ghazfulit::Refusal>(())
//! ```
//!
//! An update goes one of three ways, chosen when it is begun. By the second it holds nobody out of the pages above its leaf, as long as the
//! leaf is all that has to be changed:
//!
//! ```
//! use ghazfulit::{Index, Op, Step, Way};
//!
//! let mut index = Index::new(1, 8)?;
//! for key in [10, 20, 30] {
//!     index.begin(0, Op::insert(key, 7))?;
//!     index.finish(0)?;
//! }
//! index.begin(0, Op::insert(5, 7).by(Way::Second))?;
//! index.begin(1, Op::search(30))?;
//! assert_eq!(index.step(0)?, Step::Moved); // page 0, and the search holds it too
//! assert_eq!(index.step(1)?, Step::Moved);
//! assert_eq!(index.step(1)?, Step::Found(7));
//! assert_eq!(index.step(0)?, Step::Inserted);
//! # Ok::<(), ghazfulit::Refusal>(())
//! ```
//!
//! By the third it lets readers stay on all its pages until it knows its change, and then waits for those who are still there:
//!
//! ```
//! use ghazfulit::{Index, Lock, Op, Step, Way};
//!
//! let mut index = Index::new(1, 8)?;
//! for key in [10, 20, 30] {
//!     index.begin(0, Op::insert(key, 7))?;
//!     index.finish(0)?;
//! }
//! index.begin(1, Op::search(10))?;
//! index.step(1)?;
//! index.begin(0, Op::insert(25, 7).by(Way::Third))?;
//! assert_eq!(index.step(0)?, Step::Moved); // page 0, on which the search rests
//! assert_eq!(index.report(0)?.held, Some((Lock::Alpha, 0)));
//! assert_eq!(index.step(0)?, Step::Moved); // its leaf, which is full: both pages will change
//! assert_eq!(index.step(0)?, Step::Waiting);
//! assert_eq!(index.step(1)?, Step::Found(7));
//! assert_eq!(index.step(0)?, Step::Moved);
//! assert_eq!(index.step(0)?, Step::Inserted);
//! # Ok::<(), ghazfulit::Refusal>(())
//! ```
//!
//! What the pool holds can be kept, and opened again: what is handed in is tested whole, and refused where it is not a tree of pages.
//!
//! ```
//! use ghazfulit::{Index, Op, Refusal, Step};
//!
//! let mut index = Index::new(2, 64)?;
//! index.begin(0, Op::insert(12, 3))?;
//! index.finish(0)?;
//! let mut words = index.into_words(); // to a file, say, and back
//! let mut index = Index::open(2, 64, words.clone())?;
//! index.begin(0, Op::search(12))?;
//! assert_eq!(index.finish(0)?, Step::Found(3));
//! words[1] = 7; // seven lots, and a page has room for four
//! let refused = Index::open(2, 64, words).unwrap_err();
//! assert_eq!(refused.refusal, Refusal::BadPageInPool(0)); // and `refused.words` are as they were
//! # Ok::<(), Refusal>(())
//! ```
//!
//! A refusal is an error, and leaves everything as it was:
//!
//! ```
//! use ghazfulit::{Index, Op, Refusal};
//!
//! let mut index = Index::new(2, 64)?;
//! assert_eq!(index.step(0), Err(Refusal::SlotIdle));
//! assert_eq!(index.begin(16, Op::search(1)), Err(Refusal::BadSlot));
//! assert_eq!(Refusal::BadSlot.to_string(), "the slot is above 15");
//! assert_eq!(index.begin(0, Op::search(0)), Err(Refusal::BadKey)); // a blank tag: no lot has number 0
//! # Ok::<(), Refusal>(())
//! ```

#![deny(missing_docs)]

mod answer;
mod index;
mod lots;
pub mod numbers;
mod opening;
mod raw;

pub use answer::{Lock, Op, Refusal, Report, Step, Way};
pub use index::Index;
pub use lots::{Lot, Lots, Stop};
pub use opening::NotOpened;
pub use raw::{ANSWER, STATE};

/// How many slots there are.
pub const SLOTS: u32 = numbers::SLOTS;

/// How many words a pool of `n` pages of width `k` has; as many as fit into a `usize`.
///
/// ```
/// # use ghazfulit::pool_words;
/// assert_eq!(pool_words(2, 64), 704);
/// assert!(pool_words(u32::MAX, u32::MAX) >= u32::MAX as usize);
/// ```
pub fn pool_words(k: u32, n: u32) -> usize {
    let page = (k as usize).saturating_mul(4).saturating_add(3);
    page.saturating_mul(n as usize)
}
