//! Why words were not opened, and the words.

use std::error::Error;
use std::fmt::{self, Debug, Display, Formatter};

use crate::answer::Refusal;
use crate::lots::Stop;

/// Words that were not opened as a pool ([`Index::open`](crate::Index::open)): why, and the words as they were handed in.
#[derive(Clone, PartialEq, Eq)]
pub struct NotOpened {
    /// [`Refusal::BadPool`], [`Refusal::BadPageInPool`] with the page, or [`Refusal::BadTree`].
    pub refusal: Refusal,
    /// The words, of which none is changed.
    pub words: Vec<u32>,
}

/// Why, and how many words; not the words, which may be some 70,000.
impl Debug for NotOpened {
    fn fmt(&self, f: &mut Formatter) -> fmt::Result {
        f.debug_struct("NotOpened")
            .field("refusal", &self.refusal)
            .field("words", &self.words.len())
            .finish()
    }
}

impl Display for NotOpened {
    fn fmt(&self, f: &mut Formatter) -> fmt::Result {
        Display::fmt(&self.refusal, f)
    }
}

impl Error for NotOpened {}

/// For who has no use for the words.
impl From<NotOpened> for Refusal {
    fn from(not_opened: NotOpened) -> Refusal {
        not_opened.refusal
    }
}

/// For who lists lots in the same function.
impl From<NotOpened> for Stop {
    fn from(not_opened: NotOpened) -> Stop {
        Stop::Refused(not_opened.refusal)
    }
}
