//! Damaged blocks: every call gives the block's refusal before anything else and changes no lent memory; a block that is
//! good again builds.

use generate::{damaged, randoms, samples};
use grammar::{body, body_refusal, refusal};
use machine::{run, Answer, Run, Tables};
use trimmed::{build, build_graph_in, build_in, query, Kind, Limits};

fn blocks() -> impl Iterator<Item = Vec<u32>> {
    let bases = [samples::g1(), samples::g2(5, 6), samples::readings()];
    let random = randoms(1).map(|d| d.block());
    bases.into_iter().chain(random).flat_map(|b| damaged(&b))
}

#[test]
fn every_call_gives_the_refusal() {
    let mut counts = [0; 7];
    for block in blocks() {
        let Some(number) = refusal(&block) else {
            counts[0] += 1;
            continue;
        };
        counts[number as usize] += 1;
        assert_eq!((body_refusal(&block, 0), body(&block, 0)), (Some(number), &[][..]));
        let mut lent = vec![vec![7; 40]; 11];
        // Sizes out of range and short buffers as well: the block comes first.
        let limits = Limits { states: 0, ..Limits::MOST };
        assert_eq!(build_in(&block, limits, &mut lent).unwrap_err().number, number as u64);
        assert_eq!(build_graph_in(&block, 0, 0, &mut lent[..3]).unwrap_err().number, number as u64);
        assert!(lent.iter().flatten().all(|&w| w == 7));
        assert_eq!(query(Kind::Action, &block, 0, &[], 9, 9), Err(number as u64));
        let (mut stack, mut output) = ([7; 3], [7; 3]);
        let tables = Tables { states: 0, actions: &[], gotos: &[] };
        let ended = run(&block, tables, &[9], 9, &mut stack, &mut output);
        assert_eq!((ended.answer, ended.run), (Answer::Refused(number as u64), Run::NONE));
        assert_eq!((stack, output), ([7; 3], [7; 3]));
    }
    println!("{counts:?}");
    assert!(counts.iter().all(|&n| n > 50), "{counts:?}");
}

#[test]
fn good_again_means_that_it_builds() {
    let good = blocks().filter(|b| refusal(b).is_none());
    let answers = good.map(|b| build(&b, Limits::MOST).map_or_else(|r| r.number, |_| 0));
    assert!(answers.inspect(|n| assert!([0, 11, 12].contains(n))).count() > 50);
}
