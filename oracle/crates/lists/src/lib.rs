//! The fixed lists: one case a line, only decimal numbers. `calls` says for each list what a line's inputs are and works
//! out every expected word from them; `cases` chooses the inputs; `list` puts lines together and reads them back.
//! lists/FORMAT.md has the format.

mod calls;
mod cases;
mod list;
mod reader;

pub use cases::cases;
pub use list::{line_of, numbers_of, replay, text_of, List, LISTS};
