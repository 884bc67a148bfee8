//! Inputs for the little program: random ones, good and malformed, and one that fills its pool and empties it. And what two
//! programs write: started, and where they differ.

mod apart;
mod fill;
mod input;
mod random;
mod spoil;
mod started;

pub use apart::{first_difference, line_at};
pub use fill::fill_and_empty;
pub use input::Input;
pub use random::random_input;
pub use spoil::spoiled;
pub use started::written;
