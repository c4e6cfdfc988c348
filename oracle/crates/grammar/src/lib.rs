//! The grammar block of document 01: its checks, its parts, and the small grammar type that the builders work on.

mod body;
mod check;
mod firsts;
mod grammar;
mod symbol;
mod vob;
mod words;

pub use body::{body, body_refusal};
pub use check::refusal;
pub use firsts::Firsts;
pub use grammar::{AssocKind, Grammar, PIdx, Precedence, RIdx, SIdx, TIdx};
pub use symbol::Symbol;
pub use vob::Vob;
pub use words::Words;

/// The limits of document 01.
pub const MOST_TOKENS: u32 = 256;
pub const MOST_RULES: u32 = 256;
pub const MOST_PRODS: u32 = 512;
pub const MOST_LENGTH: u32 = 64;
pub const MOST_SYMBOLS: u32 = 8_192;
pub const MOST_LEVEL: u32 = 65_535;
pub const MOST_STATES: u64 = 4_096;
pub const MOST_ITEMS: u64 = 65_536;
pub const MOST_RECORDS: u64 = 65_536;
pub const MOST_INPUT: usize = 4_096;
pub const MOST_STEPS: u64 = 1_000_000;

/// Words of a block before its productions.
pub const HEADER: usize = 9;
