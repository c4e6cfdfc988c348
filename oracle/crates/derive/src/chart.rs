//! For every rule and every part of the string, how many trees it has: none, one, or more. Unit and empty cycles give
//! infinitely many, which is more than one; the least solution is found by rounds from nothing.

use grammar::{Grammar, Symbol};

/// Counted up to two: 0, 1, or 2 for any larger number.
pub type Count = u8;

fn plus(a: Count, b: Count) -> Count {
    (a + b).min(2)
}

fn times(a: Count, b: Count) -> Count {
    (a * b).min(2)
}

/// The chart of a string, grown and shrunk by a token at its end.
pub struct Chart<'a> {
    pub(crate) grm: &'a Grammar,
    pub(crate) word: Vec<usize>,
    /// For each end, the counts of each start and rule: `columns[end][start * rules + rule]`.
    columns: Vec<Vec<Count>>,
}

impl<'a> Chart<'a> {
    /// The chart of the empty string.
    pub fn new(grm: &'a Grammar) -> Self {
        let mut chart = Chart { grm, word: Vec::new(), columns: Vec::new() };
        chart.fill_column();
        chart
    }

    pub fn push(&mut self, token: usize) {
        self.word.push(token);
        self.fill_column();
    }

    pub fn pop(&mut self) {
        self.word.pop();
        self.columns.pop();
    }

    pub fn word(&self) -> &[usize] {
        &self.word
    }

    /// The trees of the whole string below the start production.
    pub fn trees(&self) -> Count {
        self.of_symbols(self.grm.prod(self.grm.start_prod()), 0, self.word.len())
    }

    /// The trees of a list of symbols over the part from `from` to `to`.
    pub(crate) fn of_symbols(&self, symbols: &[Symbol], from: usize, to: usize) -> Count {
        let Some((&first, rest)) = symbols.split_first() else {
            return (from == to) as Count;
        };
        if rest.is_empty() {
            return self.of_symbol(first, from, to);
        }
        let mut sum = 0;
        for mid in from..=to {
            let left = self.of_symbol(first, from, mid);
            if left > 0 {
                sum = plus(sum, times(left, self.of_symbols(rest, mid, to)));
            }
        }
        sum
    }

    pub(crate) fn of_symbol(&self, symbol: Symbol, from: usize, to: usize) -> Count {
        match symbol {
            Symbol::Token(t) => (to == from + 1 && self.word[from] == t) as Count,
            Symbol::Rule(r) => self.columns[to][from * self.grm.rules_len() + r],
        }
    }

    /// The parts that end where the string now ends, the short ones first: a part rests on shorter ones with the same
    /// end, on earlier ends, and on itself.
    fn fill_column(&mut self) {
        let end = self.word.len();
        self.columns.push(vec![0; (end + 1) * self.grm.rules_len()]);
        for from in (0..=end).rev() {
            while self.round(from, end) {}
        }
    }

    /// One round over all rules; true if a count grew.
    fn round(&mut self, from: usize, end: usize) -> bool {
        let mut grew = false;
        for r in 0..self.grm.rules_len() {
            let prods = self.grm.rule_to_prods(r);
            let count = prods.iter().fold(0, |sum, &p| plus(sum, self.of_symbols(self.grm.prod(p), from, end)));
            let at = from * self.grm.rules_len() + r;
            grew |= count > self.columns[end][at];
            self.columns[end][at] = count;
        }
        grew
    }
}
