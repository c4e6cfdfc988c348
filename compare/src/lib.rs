//! The proved static library against the oracle on generated cases. A case follows from its seed and its number alone.
mod builds;
mod counts;
mod damage;
mod ends;
mod grammars;
mod lent;
mod limits;
mod queries;
mod runs;
mod sentences;

pub use counts::Counts;
pub use grammars::Grammars;
pub use lent::{lengths, Lent};
pub use limits::needs;

use generate::Prng;

/// What differed, and the words that it is made from.
pub type Difference = String;

/// One case: a build, a graph, a damaged block, queries or runs.
pub fn case(seed: u64, number: u64, grammars: &Grammars, counts: &mut Counts) -> Result<(), Difference> {
    let mut rng = Prng::new(Prng::new(seed).draw().wrapping_add(Prng::new(number).draw()));
    match rng.below(100) {
        0..=36 => builds::build(&mut rng, grammars, counts),
        37..=44 => builds::graph(&mut rng, grammars, counts),
        45..=64 => damage::blocks(&mut rng, grammars, counts),
        65..=67 => queries::queries(&mut rng, grammars, counts),
        _ => runs::runs(&mut rng, grammars, counts),
    }
}

/// Names the first place where two lists of buffers part.
pub(crate) fn same(what: &str, told: &[Vec<u64>], got: &[Vec<u64>]) -> Result<(), Difference> {
    for (b, (t, g)) in told.iter().zip(got).enumerate() {
        if t != g {
            let i = t.iter().zip(g).position(|(x, y)| x != y).unwrap_or(t.len().min(g.len()));
            return Err(format!("{what}, buffer {b}, word {i}: oracle {:?}, library {:?}", t.get(i), g.get(i)));
        }
    }
    Ok(())
}
