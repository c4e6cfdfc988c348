//! Where the two readings of an item part: the whole automaton, or even whether there is a conflict.

use canonical::{conflicts, Automaton, Reading};
use generate::Draft;
use grammar::{Grammar, Symbol, Words};

#[derive(Clone, Copy, Debug, PartialEq)]
pub enum Parting {
    None,
    Automaton,
    Conflict,
}

pub fn parting(block: &[u32]) -> Parting {
    let grm = Grammar::new(block).expect("a good block");
    let both = [Reading::Maps, Reading::Triples].map(|r| Automaton::new(&grm, r, 2_000));
    let [Some(maps), Some(triples)] = both else { return Parting::None };
    if conflicts(&grm, &maps).any() != conflicts(&grm, &triples).any() {
        return Parting::Conflict;
    }
    if maps != triples {
        return Parting::Automaton;
    }
    Parting::None
}

/// The smallest in words, and the first of these, whose readings part so.
pub fn smallest(drafts: impl Iterator<Item = Draft>, parts: Parting) -> Option<Vec<u32>> {
    let mut best: Option<Vec<u32>> = None;
    for draft in drafts {
        let block = draft.block();
        if best.as_ref().is_none_or(|b| block.len() < b.len()) && parting(&block) == parts {
            best = Some(block);
        }
    }
    best
}

/// A grammar to be read by people: rules as letters from S, tokens as letters from a.
pub fn shown(block: &[u32]) -> String {
    let w = Words(block);
    let rule = |r: usize| if r == w.rule(w.start()) { "start".to_string() } else { format!("R{r}") };
    let symbol = |&x: &u32| match Symbol::from_word(x) {
        Symbol::Rule(r) => rule(r),
        Symbol::Token(t) => ((b'a' + (t % 26) as u8) as char).to_string(),
    };
    let prods = (0..w.prods()).map(|p| {
        let body: Vec<String> = w.body(p).iter().map(symbol).collect();
        format!("{}→{}", rule(w.rule(p)), if body.is_empty() { "ε".to_string() } else { body.join(" ") })
    });
    prods.collect::<Vec<_>>().join(", ")
}
