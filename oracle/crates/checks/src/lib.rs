//! What the checks share: a run of the machine on a build's own tables, and where the two readings of an item part.

mod machine_run;
mod readings;

pub use machine_run::{tables, MachineTables};
pub use readings::{parting, shown, smallest, Parting};
