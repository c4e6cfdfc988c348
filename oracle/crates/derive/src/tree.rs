//! The one derivation of a string: its productions in the order in which a shift-reduce machine reduces them, which is
//! the rightmost derivation backwards, without the start production.

use grammar::Symbol;

use crate::chart::Chart;

impl Chart<'_> {
    /// The reductions, if the string has exactly one tree.
    pub fn reductions(&self) -> Option<Vec<usize>> {
        if self.trees() != 1 {
            return None;
        }
        let mut out = Vec::new();
        self.symbols(self.grm.prod(self.grm.start_prod()), 0, self.word.len(), &mut out);
        Some(out)
    }

    /// A list of symbols with one tree: one way to cut the part, each piece with one tree.
    fn symbols(&self, symbols: &[Symbol], from: usize, to: usize, out: &mut Vec<usize>) {
        let Some((&first, rest)) = symbols.split_first() else { return };
        let cut = (from..=to).find(|&mid| self.of_symbol(first, from, mid) > 0 && self.of_symbols(rest, mid, to) > 0);
        let mid = cut.expect("a list of symbols with a tree has a cut");
        if let Symbol::Rule(r) = first {
            self.rule(r, from, mid, out);
        }
        self.symbols(rest, mid, to, out);
    }

    fn rule(&self, r: usize, from: usize, to: usize, out: &mut Vec<usize>) {
        let prods = self.grm.rule_to_prods(r);
        let one = prods.iter().find(|&&p| self.of_symbols(self.grm.prod(p), from, to) > 0);
        let &p = one.expect("a rule with a tree has a production with one");
        self.symbols(self.grm.prod(p), from, to, out);
        out.push(p);
    }
}
