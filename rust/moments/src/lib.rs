//! Moments at which calls are tried: in the middle of random runs, with words or cells spoiled, on pages that no run
//! reaches, and near the limits of a sound state; and pools to be opened, as runs leave them or with something changed.

mod broken;
mod built;
#[cfg(test)]
mod clauses;
mod converting;
mod fresh;
mod handed;
mod limits;
mod moment;
mod pages;
mod second_way;
mod spoiled;

pub use built::built;
pub use fresh::{draw, draw_calls, made, next_call, operation, Draw};
pub use handed::handed;
pub use limits::limits;
pub use moment::{Call, Moment};
pub use spoiled::{spoiled_state, spoiled_words};
