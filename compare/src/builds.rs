//! Builds and graphs of good blocks: every word of every buffer, also those that must stay.
use generate::Prng;

use crate::lent::{build_told, graph_told, lengths, Lent, BUFFERS};
use crate::limits::{chosen, needs};
use crate::{same, Counts, Difference, Grammars};

pub fn build(rng: &mut Prng, grammars: &Grammars, counts: &mut Counts) -> Result<(), Difference> {
    let (kind, block) = grammars.pick(rng);
    let needed = needs(&block);
    let (rooms, limits) = chosen(rng, needed);
    // Buffers for what is out of range can't be had; those of the needed limits do.
    let named = if rooms == "out of range" { needed } else { limits };
    let words = lent_lengths(rng, lengths(&block, named));
    let mut lent = Lent::filled(rng, &words);
    let before = lent.all();
    let answer = lent.build(&block, limits);
    let (told, after) = build_told(&block, limits, before);
    counts.add("grammars", kind);
    counts.add("rooms", rooms);
    counts.add("builds", answer[0]);
    if answer[0] == 0 {
        shown(&answer, counts);
    }
    let about = || format!("build, {limits:?}, block {block:?}: answer {answer:?}, oracle's {told:?}");
    if answer[..] != told[..] {
        return Err(about());
    }
    same(&about(), &after, &lent.all())
}

/// What a build showed; one may show several.
fn shown(answer: &[u64; 7], counts: &mut Counts) {
    let [_, states, _, before, rr, sr, settled] = *answer;
    let told = [
        ("state given up", before > states),
        ("reduce/reduce", rr > 0),
        ("shift/reduce", sr > 0),
        ("settled by precedence", settled > 0),
        ("nothing recorded or settled", rr + sr + settled == 0),
        ("over 100 states", states > 100),
    ];
    told.iter().filter(|t| t.1).for_each(|t| counts.add("shown by builds", t.0));
}

pub fn graph(rng: &mut Prng, grammars: &Grammars, counts: &mut Counts) -> Result<(), Difference> {
    let (kind, block) = grammars.pick(rng);
    let needed = needs(&block);
    let (rooms, limits) = chosen(rng, needed);
    let named = if rooms == "out of range" { needed } else { limits };
    let words = lent_lengths(rng, lengths(&block, named));
    let mut lent = Lent::filled(rng, &words);
    let before = lent.all();
    let (states, items) = (limits.states, limits.items);
    let answer = lent.graph(&block, states, items);
    let (told, after) = graph_told(&block, states, items, before);
    counts.add("grammars", kind);
    counts.add("rooms", rooms);
    counts.add("graphs", answer[0]);
    let about = || format!("graph, {states} states, {items} items, block {block:?}: {answer:?}, oracle's {told:?}");
    if answer[..] != told[..] {
        return Err(about());
    }
    same(&about(), &after, &lent.all())
}

/// Words behind the named parts; now and then one buffer is a word short.
fn lent_lengths(rng: &mut Prng, exact: [usize; BUFFERS]) -> [usize; BUFFERS] {
    let mut all = exact.map(|n| n + rng.below(6));
    let at = rng.below(BUFFERS);
    if rng.percent(6) && exact[at] > 0 {
        all[at] = exact[at] - 1;
    }
    all
}
