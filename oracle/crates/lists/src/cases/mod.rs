//! The inputs of every list.

mod blocks;
mod closures;
mod machine;
mod machine_refused;
mod pool;
mod queries;
mod refusals;
mod rooms;
mod wide;

use crate::calls;
use crate::list::{line_of, List};

/// The lines of a list, in order, none twice.
pub fn cases(list: List) -> Vec<Vec<u64>> {
    let inputs = match list {
        List::Blocks => blocks::checks(),
        List::Bodies => blocks::bodies(),
        List::Firsts => firsts(),
        List::Closures => closures::closures(),
        List::Graphs => rooms::graphs(),
        List::Tables => rooms::tables(),
        List::Queries => queries::queries(),
        List::Refusals => refusals::refusals(),
        List::Runs => machine::runs(),
    };
    let mut lines: Vec<Vec<u64>> = Vec::new();
    let mut seen = std::collections::BTreeSet::new();
    for input in inputs {
        if seen.insert(input.clone()) {
            lines.push(line_of(list, &input));
        }
    }
    lines
}

fn firsts() -> Vec<Vec<u64>> {
    let known = pool::chosen(3, 1_200);
    let blocks = known.into_iter().map(|k| k.block).chain(wide::wide()).chain(wide::bodies_of_rules());
    blocks.map(|b| calls::firsts::inputs(&b)).collect()
}
