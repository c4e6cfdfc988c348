//! Grammars at the ends of the ranges: tokens in every word of a set, long bodies, many rules.

use generate::{family, random, rule, shapes, token, Draft, Prng};

/// Where the tokens of a small grammar stand: at the ends of the words of a set.
const PLACES: [[u32; 10]; 6] = [
    [63, 64, 0, 65, 1, 62, 2, 61, 3, 60],
    [64, 63, 65, 66, 0, 1, 62, 67, 2, 3],
    [127, 128, 64, 63, 129, 0, 126, 65, 1, 62],
    [128, 191, 127, 192, 255, 64, 0, 63, 254, 193],
    [255, 0, 192, 63, 128, 254, 64, 127, 191, 1],
    [64, 128, 192, 63, 127, 191, 0, 129, 65, 193],
];

/// Small grammars with their tokens there: random ones, and members of the families.
pub fn wide() -> Vec<Vec<u32>> {
    let mut rng = Prng::new(4_000);
    let mut all = Vec::new();
    for place in PLACES {
        let shape = shapes()[4];
        let mut drafts = vec![random(&mut rng, &shape)];
        drafts.extend([0, 1, 2, 3].map(|which| family(&mut rng, which)));
        for draft in drafts {
            let used = &place[..draft.tokens as usize];
            all.push(draft.spread(used.iter().max().expect("a token") + 1, used).block());
        }
    }
    all
}

/// start→A, A→t … t with 64 tokens, and the like with rules that may be empty.
pub fn long() -> Vec<Vec<u32>> {
    let tokens = vec![token(0); 64];
    let rules: Vec<u32> = (0..64).map(|i| if i % 9 == 8 { token(0) } else { rule(2) }).collect();
    vec![Draft::new(2, 2, &[(1, &tokens)]).block(), Draft::new(2, 3, &[(1, &rules), (2, &[])]).block()]
}

/// Chains through many rules: FIRST and nullable take as many rounds, whichever way the productions are walked.
pub fn bodies_of_rules() -> Vec<Vec<u32>> {
    let chain = |rules: u32, last: &[u32], backwards: bool| {
        let mut prods: Vec<(u32, Vec<u32>)> = (1..rules - 1).map(|r| (r, vec![rule(r + 1)])).collect();
        prods.push((rules - 1, last.to_vec()));
        if backwards {
            prods.reverse();
        }
        let lent: Vec<(u32, &[u32])> = prods.iter().map(|(r, b)| (*r, b.as_slice())).collect();
        Draft::new(2, rules, &lent).block()
    };
    vec![
        chain(8, &[token(0)], false),
        chain(8, &[token(0)], true),
        chain(8, &[], false),
        chain(8, &[], true),
        chain(256, &[token(0)], false),
        chain(256, &[], true),
    ]
}
