//! Where the fault of a refused block lies, for people: the library decides that it is refused, this only looks for the first word that is wrong.
use crate::Refusal;

/// A sentence on the first fault of that kind; nothing where there is none.
pub fn where_it_lies(words: &[u32], refusal: Refusal) -> Option<String> {
    let at = |i: usize| words.get(i).map_or(0, |&w| w as usize);
    match refusal {
        Refusal::BadHeader => header(words.len(), at),
        Refusal::TooLarge => sizes(at),
        Refusal::BadProduction => productions(at),
        Refusal::BadStart => start(at),
        Refusal::BadSymbol => symbols(at),
        Refusal::BadPrecedence => precedences(at),
        _ => None,
    }
}

fn header(length: usize, at: impl Fn(usize) -> usize) -> Option<String> {
    if length < 9 {
        return Some(format!("{length} words; a block is headed by nine"));
    }
    let symbols_at = 9 + 4 * at(2);
    let precs_at = symbols_at + at(3);
    for (i, what, must) in [(6, "productions", 9), (7, "symbols", symbols_at), (8, "token precedences", precs_at)] {
        if at(i) != must {
            return Some(format!("word {i}, the place of the {what}, is {} and must be {must}", at(i)));
        }
    }
    let must = precs_at + at(0);
    (length != must).then(|| format!("{length} words; the header's sizes need {must}"))
}

fn sizes(at: impl Fn(usize) -> usize) -> Option<String> {
    [("tokens", 1, 256), ("rules", 1, 256), ("productions", 1, 512), ("symbols", 0, 8192)]
        .iter()
        .enumerate()
        .find(|&(i, &(_, low, high))| at(i) < low || high < at(i))
        .map(|(i, (what, low, high))| format!("word {i}, the {what}, is {} and must be {low} to {high}", at(i)))
}

fn productions(at: impl Fn(usize) -> usize) -> Option<String> {
    let mut sum = 0;
    for p in 0..at(2) {
        let word = 9 + 4 * p;
        if at(1) <= at(word) {
            return Some(format!("word {word}: the rule of production {p} is {}, of {} rules", at(word), at(1)));
        }
        if at(word + 1) != sum {
            let found = at(word + 1);
            return Some(format!("word {}: the first index of production {p} is {found} and must be {sum}", word + 1));
        }
        if 64 < at(word + 2) {
            return Some(format!("word {}: the length of production {p} is {}, over 64", word + 2, at(word + 2)));
        }
        sum += at(word + 2);
    }
    (sum != at(3)).then(|| format!("the lengths sum to {sum}, and word 3 has {} symbols", at(3)))
}

fn start(at: impl Fn(usize) -> usize) -> Option<String> {
    let (prods, start) = (at(2), at(5));
    if at(0) <= at(4) {
        return Some(format!("word 4: the end token is {}, of {} tokens", at(4), at(0)));
    }
    if prods <= start {
        return Some(format!("word 5: the start production is {start}, of {prods} productions"));
    }
    let word = 9 + 4 * start;
    if at(word + 2) != 1 {
        return Some(format!("word {}: the start production {start} has {} symbols, not one", word + 2, at(word + 2)));
    }
    let symbol = 9 + 4 * prods + at(word + 1);
    if at(symbol) % 2 != 0 {
        return Some(format!("word {symbol}: the symbol of the start production is a token"));
    }
    (0..prods)
        .find(|&p| p != start && at(9 + 4 * p) == at(word))
        .map(|p| format!("word {}: production {p} has the start rule {} too", 9 + 4 * p, at(word)))
}

fn symbols(at: impl Fn(usize) -> usize) -> Option<String> {
    let start_rule = at(9 + 4 * at(5));
    let owner = |i: usize| (0..at(2)).rev().find(|&p| at(10 + 4 * p) <= i).unwrap_or(0);
    (0..at(3)).find_map(|i| {
        let word = 9 + 4 * at(2) + i;
        let (x, n) = (at(word), at(word) / 2);
        let why = match x % 2 {
            0 if at(1) <= n => format!("rule {n}, of {} rules", at(1)),
            0 if n == start_rule => format!("the start rule {n}"),
            1 if at(0) <= n => format!("token {n}, of {} tokens", at(0)),
            1 if n == at(4) => format!("the end token {n}"),
            _ => return None,
        };
        Some(format!("word {word}, in the right side of production {}: {why}", owner(i)))
    })
}

fn precedences(at: impl Fn(usize) -> usize) -> Option<String> {
    let bad = |w: usize| w != 0 && (w % 4 == 0 || 65535 < w / 4);
    let say = |word: usize, what: &str, n: usize| {
        let w = at(word);
        let why = if w % 4 == 0 { "kind 0".to_string() } else { format!("level {}, over 65535", w / 4) };
        format!("word {word}: the precedence {w} of {what} {n} has {why}")
    };
    let tokens_at = 9 + 4 * at(2) + at(3);
    let production = (0..at(2)).find(|p| bad(at(12 + 4 * p))).map(|p| say(12 + 4 * p, "production", p));
    production.or_else(|| (0..at(0)).find(|t| bad(at(tokens_at + t))).map(|t| say(tokens_at + t, "token", t)))
}
