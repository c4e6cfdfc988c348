//! The recogniser on grammars whose trees can be counted by hand.

use derive::{is_derivation, Chart};
use generate::{rule, samples, token, Draft};
use grammar::Grammar;

fn chart_of<'a>(grm: &'a Grammar, word: &[usize]) -> Chart<'a> {
    let mut chart = Chart::new(grm);
    word.iter().for_each(|&t| chart.push(t));
    chart
}

fn trees(block: &[u32], word: &[usize]) -> u8 {
    chart_of(&Grammar::new(block).unwrap(), word).trees()
}

#[test]
fn one_tree_and_two() {
    let minus = samples::g2(0, 0);
    assert_eq!(trees(&minus, &[1]), 1);
    assert_eq!(trees(&minus, &[1, 0, 1]), 1);
    assert_eq!(trees(&minus, &[1, 0, 1, 0, 1]), 2);
    assert_eq!(trees(&minus, &[1, 0]), 0);
    assert_eq!(trees(&minus, &[]), 0);
}

/// S→S gives every string of S infinitely many trees; without another production there is none.
#[test]
fn cycles() {
    assert_eq!(trees(&samples::cycle(), &[0]), 2);
    assert_eq!(trees(&Draft::new(2, 2, &[(1, &[rule(1)])]).block(), &[]), 0);
    // A→A A | ε: the empty string too.
    assert_eq!(trees(&Draft::new(2, 2, &[(1, &[rule(1), rule(1)]), (1, &[])]).block(), &[]), 2);
}

/// A cycle that the start does not reach changes nothing.
#[test]
fn unreached_cycle() {
    let block = Draft::new(2, 3, &[(1, &[token(0)]), (2, &[rule(2)]), (2, &[token(0)])]).block();
    assert_eq!(trees(&block, &[0]), 1);
}

#[test]
fn the_one_derivation() {
    // 0 start→A, 1 A→B a A, 2 A→ε, 3 B→ε.
    let block = Draft::new(2, 3, &[(1, &[rule(2), token(0), rule(1)]), (1, &[]), (2, &[])]).block();
    let grm = Grammar::new(&block).unwrap();
    assert_eq!(chart_of(&grm, &[0, 0]).reductions(), Some(vec![3, 3, 2, 1, 1]));
    assert!(is_derivation(&grm, &[3, 3, 2, 1, 1], &[0, 0]));
    assert!(!is_derivation(&grm, &[3, 3, 2, 1, 1], &[0]));
    assert!(!is_derivation(&grm, &[3, 2, 3, 1, 1], &[0, 0]));
    assert!(!is_derivation(&grm, &[3, 3, 2, 1], &[0, 0]));
}

/// Taking a token away gives the chart of the shorter string.
#[test]
fn push_and_pop() {
    let block = samples::g2(0, 0);
    let grm = Grammar::new(&block).unwrap();
    let mut chart = chart_of(&grm, &[1, 0, 1, 0, 1]);
    assert_eq!(chart.trees(), 2);
    chart.pop();
    assert_eq!(chart.trees(), 0);
    chart.pop();
    assert_eq!((chart.trees(), chart.word()), (1, &[1, 0, 1][..]));
}
