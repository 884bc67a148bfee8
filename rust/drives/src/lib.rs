//! Scenes for the program `drive`, and the search for one that it writes otherwise than the twin.

mod bench;
mod differ;
mod opening;
mod program;
mod scene;
mod scenes;

pub use bench::{cases, Case};
pub use differ::{compare, smallest, Tally};
pub use program::{Program, Started};
pub use scene::Scene;
pub use scenes::{draw_scene, Kind, KINDS};
