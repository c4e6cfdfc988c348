//! The two queries of a production's right side.

use crate::{refusal, Words};

/// The right side of production p as a part of the block; empty for a refused block or an unknown production.
pub fn body(block: &[u32], p: u64) -> &[u32] {
    if body_refusal(block, p).is_some() {
        return &[];
    }
    Words(block).body(p as usize)
}

/// 1 to 6 for a refused block, 18 for an unknown production of a good one, or none.
pub fn body_refusal(block: &[u32], p: u64) -> Option<u32> {
    if let Some(number) = refusal(block) {
        return Some(number);
    }
    if p >= Words(block).prods() as u64 {
        return Some(18);
    }
    None
}
