//! The language-like grammars are what they are meant to be, and large builds keep to their limits.

use generate::{flat, tower};
use grammar::{refusal, Words};
use trimmed::{build, build_graph, Built, Limits, Refused};

fn built(block: &[u32]) -> Built {
    build(block, Limits::MOST).expect("it builds")
}

#[test]
fn so_many_productions() {
    for count in [100, 300, 500] {
        for block in [tower(count), flat(count)] {
            assert_eq!((refusal(&block), Words(&block).prods()), (None, count));
        }
    }
}

#[test]
fn a_tower_has_no_conflict_and_flat_operators_are_settled() {
    for count in [100, 300, 500] {
        let b = built(&tower(count));
        assert_eq!(
            (b.table.conflicts.reduce_reduce.len(), b.table.conflicts.shift_reduce.len(), b.table.settled),
            (0, 0, 0)
        );
    }
    let b = built(&flat(100));
    assert!(b.table.conflicts.reduce_reduce.is_empty() && b.table.conflicts.shift_reduce.is_empty());
    assert!(b.table.settled > 1_000);
}

/// Exactly the room that a large build needs, and one short of it.
#[test]
fn exactly_enough_room() {
    for block in [tower(300), flat(100)] {
        let made = built(&block).graph.made().to_vec();
        let (states, items) = (made.len() as u64, made.iter().sum::<usize>() as u64);
        let answer = |states, items| build_graph(&block, states, items).map(|g| g.made().len() as u64);
        assert_eq!(answer(states, items), Ok(states));
        assert_eq!(answer(states - 1, items), Err(Refused::plain(8)));
        assert_eq!(answer(states, items - 1), Err(Refused::plain(9)));
    }
}
