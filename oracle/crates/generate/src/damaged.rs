//! A good block made bad: every word changed to each boundary value, cut short, made longer.

const BOUNDARIES: [u32; 18] =
    [0, 1, 2, 3, 9, 64, 65, 255, 256, 257, 511, 513, 8_192, 8_193, 262_143, 262_144, 1 << 31, u32::MAX];

/// Blocks one word away from a good one, its beginnings, and longer ones. Some are good again.
pub fn damaged(block: &[u32]) -> Vec<Vec<u32>> {
    let mut all = Vec::new();
    for at in 0..block.len() {
        let word = block[at];
        let near = [word.wrapping_add(1), word.wrapping_sub(1), word.wrapping_add(2), word.wrapping_sub(2)];
        for value in BOUNDARIES.into_iter().chain(near) {
            let mut changed = block.to_vec();
            changed[at] = value;
            if value != word && !all.contains(&changed) {
                all.push(changed);
            }
        }
    }
    for len in 0..block.len() {
        all.push(block[..len].to_vec());
    }
    for more in [&[0][..], &[1, 0], &[0, 0, 0]] {
        all.push([block, more].concat());
    }
    all
}
