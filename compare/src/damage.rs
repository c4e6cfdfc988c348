//! Blocks with words changed, cut or lengthened: the refusal in every call that takes a block, and no buffer touched.
use generate::Prng;
use grammar::{body, body_refusal, refusal};
use timkerzal::lent as library;

use crate::grammars::draft;
use crate::lent::{build_told, lengths, Lent};
use crate::limits::needs;
use crate::runs::{compare, Run};
use crate::{same, Counts, Difference, Grammars};

const BOUNDARIES: [u32; 18] =
    [0, 1, 2, 3, 9, 64, 65, 255, 256, 257, 511, 513, 8_192, 8_193, 262_143, 262_144, 1 << 31, u32::MAX];

pub fn blocks(rng: &mut Prng, grammars: &Grammars, counts: &mut Counts) -> Result<(), Difference> {
    let (_, good) = grammars.pick(rng);
    let limits = needs(&good);
    let block = damaged(rng, &good);
    let number = library::check(&block);
    counts.add("damaged blocks", number);
    let told = refusal(&block).map_or(0, |n| n as u32);
    if number != told {
        return Err(format!("check, block {block:?}: {number}, oracle's {told}"));
    }
    let any = rng.below(600);
    let p = rng.pick(&[0, 1, any, usize::MAX]);
    let (why, symbols) = library::body(&block, p);
    if (why, &symbols[..]) != (body_refusal(&block, p as u64).map_or(0, |n| n as u32), body(&block, p as u64)) {
        return Err(format!("body {p}, block {block:?}: {why}, {symbols:?}"));
    }
    let words = lengths(&good, limits).map(|n| n + rng.below(4));
    let mut lent = Lent::filled(rng, &words);
    let before = lent.all();
    let answer = lent.build(&block, limits);
    let (told, after) = build_told(&block, limits, before);
    counts.add("builds of damaged blocks", answer[0]);
    let about = || format!("build, {limits:?}, block {block:?}: answer {answer:?}, oracle's {told:?}");
    if answer[..] != told[..] {
        return Err(about());
    }
    same(&about(), &after, &lent.all())?;
    if number == 0 {
        return Ok(());
    }
    let words = vec![1; rng.below(40)];
    let run =
        Run { block, states: 1, actions: words.clone(), gotos: words, input: vec![0], limit: 9, stack: 3, output: 3 };
    compare(rng, &run, "runs of damaged blocks", counts)
}

fn damaged(rng: &mut Prng, good: &[u32]) -> Vec<u32> {
    let mut block = good.to_vec();
    for _ in 0..rng.pick(&[1, 1, 1, 2, 3]) {
        // The header is hit more often than its length would have it.
        let at = if rng.percent(30) { rng.below(9) } else { rng.below(block.len()) };
        let word = block[at];
        block[at] = match rng.below(4) {
            0 => word.wrapping_add(rng.between(1, 4) as u32),
            1 => word.wrapping_sub(rng.between(1, 4) as u32),
            2 => rng.pick(&BOUNDARIES),
            _ => rng.draw() as u32 >> rng.below(32),
        };
    }
    match rng.below(10) {
        0 => block.truncate(rng.below(good.len())),
        1 => block.extend((0..rng.between(1, 3)).map(|i| i as u32)),
        2 => return longer(rng, good),
        3 => return stretched(rng, good),
        _ => (),
    }
    block
}

/// A body of 64, 65 or 66 symbols or a production more, all else put right.
fn stretched(rng: &mut Prng, good: &[u32]) -> Vec<u32> {
    let mut draft = draft(good);
    let p = rng.below(draft.prods.len());
    if rng.percent(30) {
        let copy = draft.prods[p].clone();
        draft.prods.push(copy);
        return draft.block();
    }
    let symbol = rng.pick(&[1, 2, 3, 4]);
    let length = rng.pick(&[64, 65, 66]);
    draft.prods[p].1.resize(length, symbol);
    draft.block()
}

/// A token, a rule or a symbol more, the rest of the header put right or not.
fn longer(rng: &mut Prng, good: &[u32]) -> Vec<u32> {
    let mut block = good.to_vec();
    match rng.below(3) {
        0 => {
            block[0] += 1;
            block.push(rng.pick(&[0, 5, 4, 262_144]));
        }
        1 => block[1] += rng.pick(&[1, 255]),
        _ => {
            block[3] += 1;
            block.insert(good[8] as usize, rng.pick(&[1, 2, 0, 600]));
            block[8] += rng.below(2) as u32;
        }
    }
    block
}
