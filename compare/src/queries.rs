//! Queries of tables and marks, of words as built and of any, also where nothing is there to be asked.
use generate::Prng;
use grammar::{Grammar, Words};
use timkerzal::lent::{self, Table};
use trimmed::{build, query, Kind, Limits, TableRoom};

use crate::{Counts, Difference, Grammars};

const TABLES: [Table; 6] = [Table::Actions, Table::Gotos, Table::Offered, Table::Shifts, Table::Cores, Table::Only];

pub fn queries(rng: &mut Prng, grammars: &Grammars, counts: &mut Counts) -> Result<(), Difference> {
    let (_, block) = grammars.pick(rng);
    let Ok(built) = build(&block, Limits::MOST) else { return Ok(()) };
    let states = built.graph.all_states_len() as u64;
    let tables = TableRoom::of(&Grammar::new(&block).expect("a good block"), &built).parts();
    for (i, kind) in Kind::ALL.into_iter().enumerate() {
        let mut words: Vec<u32> = tables[i].iter().map(|&w| w as u32).collect();
        if rng.percent(30) {
            words.iter_mut().for_each(|w| *w = rng.draw() as u32);
        }
        let width = kind.width(Words(&block)) as usize;
        let (mut s, mut column) = (rng.below(states as usize), rng.below(width));
        let mut named = states;
        match rng.below(20) {
            0 => s = rng.pick(&[states as usize, usize::MAX]),
            1 => column = rng.pick(&[width, usize::MAX]),
            2 => named = rng.pick(&[0, states + 1, 4_097, u64::MAX]),
            3 => drop(words.pop()),
            4 if width <= 8 && rng.percent(20) => {
                named = rng.pick(&[4_096, 4_097]);
                words.resize(4_097 * width, 1);
            }
            _ => (),
        }
        let got = lent::query(TABLES[i], &block, named as usize, &words, s, column);
        let wide: Vec<u64> = words.iter().map(|&w| w.into()).collect();
        // A reduce-only mark has no column.
        let column = if kind == Kind::ReduceOnly { 0 } else { column as u64 };
        let told = match query(kind, &block, named, &wide, s as u64, column) {
            Ok(word) => [0, word as u32],
            Err(number) => [number as u32, 0],
        };
        counts.add("queries", got[0]);
        if got != told {
            return Err(format!("{kind:?} {s} {column} of {named}, block {block:?}: {got:?}, oracle's {told:?}"));
        }
    }
    Ok(())
}
