//! Canonical LR(1) has a conflict exactly where the trimmed crate's graph has one, and both finish with empty lists on
//! the same grammars.

use canonical::{conflicts, Automaton, Found, Reading};
use generate::all;
use grammar::Grammar;
use trimmed::{build, Limits, Refused};

/// What the merged graph's cells hold.
struct Merged {
    /// Two actions meet anywhere, settled or not.
    any: bool,
    finishes_empty: bool,
}

fn merged(block: &[u32]) -> Merged {
    match build(block, Limits::MOST) {
        Ok(b) => {
            let empty = b.table.conflicts.reduce_reduce.is_empty() && b.table.conflicts.shift_reduce.is_empty();
            Merged { any: !empty || b.table.settled > 0, finishes_empty: empty }
        }
        Err(Refused { number, .. }) => {
            assert!(number >= 11, "refused with {number}");
            Merged { any: true, finishes_empty: false }
        }
    }
}

fn canonical_found(block: &[u32]) -> Option<Found> {
    let grm = Grammar::new(block).unwrap();
    Automaton::new(&grm, Reading::Maps, 2_000).map(|a| conflicts(&grm, &a))
}

#[test]
fn canonical_and_merged_agree() {
    let (mut with, mut without, mut settled, mut skipped) = (0, 0, 0, 0);
    for draft in all(2_000, 600) {
        let block = draft.block();
        let Some(found) = canonical_found(&block) else {
            skipped += 1;
            continue;
        };
        let merged = merged(&block);
        assert_eq!(found.any(), merged.any, "{draft:?}");
        assert_eq!(found.finishes_empty(), merged.finishes_empty, "{draft:?}");
        *(if found.any() { &mut with } else { &mut without }) += 1;
        settled += (found.any() && found.finishes_empty()) as usize;
    }
    println!("{with} with a conflict, {settled} of them all settled, {without} without, {skipped} too large");
    assert!(with > 10_000 && without > 10_000 && settled > 200 && skipped < 50);
}
