//! A plain shift-reduce machine after document 01, over any words as tables.

mod run;
mod step;

pub use run::{run, Answer, Ended, Tables};
pub use step::Run;
