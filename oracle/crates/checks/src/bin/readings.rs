//! Prints every grammar of the checks where the two readings of canonical LR(1) differ.

use checks::{parting, shown, Parting};
use generate::all;

fn main() {
    let mut counts = [0; 3];
    for draft in all(300, 100) {
        let block = draft.block();
        let parts = parting(&block);
        counts[parts as usize] += 1;
        if parts != Parting::None {
            println!("{parts:?}: {} | {block:?}", shown(&block));
        }
    }
    println!(
        "{} the same, {} with another automaton, {} with another answer to: is there a conflict",
        counts[0], counts[1], counts[2]
    );
}
