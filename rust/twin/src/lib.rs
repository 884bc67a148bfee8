//! Document 01, with the requests of 02 that have landed, a second time: the index of lots as five plain calls.
//!
//! Written from the documents alone, so that it shares nothing with the proved rules.
//! It decodes every page it reads into lists, changes the lists and writes them back.
//!
//! ```
//! use twin::{begin, make, step, Answer, Op, Way};
//! let mut words = [9; 7];
//! let (made, state) = make(1, 1, &mut words);
//! assert_eq!(made, Answer::Made);
//! let (_, state) = begin(&state, 0, Op::Insert(10, 7, Way::First));
//! let (answer, _) = step(&state, &mut words, 0);
//! assert_eq!(answer, Answer::Inserted);
//! assert_eq!(words, [1, 1, 10, 7, 0, 0, 0]);
//! ```

mod answer;
mod calls;
mod change;
mod converting;
mod grant;
mod lent;
mod like_readers;
mod lock;
mod locks;
mod op;
mod opening;
mod page;
mod reach;
mod second_way;
mod state;

pub use answer::Answer;
pub use calls::{begin, make, open, report, step};
pub use lent::{
    at, begin_lent, held_in, held_word, make_lent, open_lent, report_lent, row, state_of,
    step_lent, words_of, FRONT, HALF, STATE,
};
pub use lock::Lock;
pub use locks::must_wait;
pub use op::{kind, Op, Way};
pub use page::{free_pages, page_words, read_page, Page, BLANK_KEY};
pub use state::{is_sound, Slot, State, PATH, SIBLINGS, SLOTS};
