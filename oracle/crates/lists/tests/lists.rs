//! The lists in the tree are what the program writes, and every line reads back.

use std::{fs, path::PathBuf};

use lists::{cases, numbers_of, replay, text_of, List, LISTS};

fn tree(list: List) -> String {
    let path = PathBuf::from(env!("CARGO_MANIFEST_DIR")).join("../../lists").join(list.file());
    fs::read_to_string(path).expect("the list is in the tree")
}

#[test]
fn lists_in_the_tree_are_what_is_written() {
    for list in LISTS {
        let text: String = cases(list).iter().map(|line| text_of(line)).collect();
        assert!(text == tree(list), "{} is out of date: run `lists write`", list.file());
    }
}

#[test]
fn every_line_reads_back_and_is_short_enough() {
    let mut total = 0;
    for list in LISTS {
        for line in tree(list).lines() {
            let numbers = numbers_of(line);
            assert!(numbers.len() < 16_384);
            assert!(replay(list, &numbers), "{} {line}", list.file());
            total += 1;
        }
    }
    assert!(total > 5_000);
}

/// A line whose last number, always an expected one, is changed does not read back.
#[test]
fn a_wrong_line_is_noticed() {
    for list in [List::Blocks, List::Graphs, List::Tables, List::Queries, List::Runs] {
        for line in tree(list).lines().take(200) {
            let mut numbers = numbers_of(line);
            // A last part may be empty: its length is no word of it.
            if *numbers.last().unwrap() == 0 && list != List::Blocks {
                continue;
            }
            *numbers.last_mut().unwrap() ^= 1;
            assert!(!replay(list, &numbers), "{} {line}", list.file());
        }
    }
}

/// Every refusal from 1 to 18 stands in the list of refusals.
#[test]
fn all_refusals_are_there() {
    let mut seen = [false; 19];
    for line in tree(List::Refusals).lines() {
        seen[refusal_of(&numbers_of(line)) as usize % 19] = true;
    }
    assert!(seen[1..].iter().all(|&s| s), "{seen:?}");
}

/// The number of the answer: it stands behind the inputs.
fn refusal_of(line: &[u64]) -> u64 {
    let block = line[if line[0] == 4 { 2 } else { 1 }] as usize;
    match line[0] {
        0 => line[2 + block],
        1 => line[3 + block],
        2 => line[2 + block + 6],
        3 => line[2 + block + 16],
        4 => line[line.len() - 2],
        _ => {
            let mut at = 2 + block + 1;
            for _ in 0..3 {
                at += 1 + line[at] as usize;
            }
            line[at + 4] % 100
        }
    }
}
