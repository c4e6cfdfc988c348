//! Grammar blocks for the checks and the lists: document 01's samples, random grammars of many shapes, all grammars of a
//! few tiny sizes, families around Pager's merging, language-like grammars, and damaged blocks. Everything follows from
//! seeds in the text.

mod damaged;
mod draft;
mod families;
mod language;
mod nearby;
mod pools;
mod prng;
mod random;
pub mod rare;
pub mod samples;
mod tiny;

pub use damaged::damaged;
pub use draft::{rule, token, Draft};
pub use families::{family, FAMILIES};
pub use language::{flat, tower};
pub use nearby::nearby;
pub use pools::{all, families, nearbies, randoms, tinies};
pub use prng::Prng;
pub use random::{random, shapes, Shape};
pub use tiny::{tiny, Tiny, TINY};
