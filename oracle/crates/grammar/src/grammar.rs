//! A good block as lrtable's code wants to see a grammar: the methods of `YaccGrammar` that it calls.

use crate::{refusal, Firsts, Symbol, Words};

// The crate wraps each index in a type of its own over `StorageT`; here each is a plain number.
pub type PIdx = usize;
pub type SIdx = usize;
pub type RIdx = usize;
pub type TIdx = usize;

#[derive(Clone, Copy, Debug, Eq, PartialEq)]
pub enum AssocKind {
    Left,
    Right,
    Nonassoc,
}

#[derive(Clone, Copy, Debug, Eq, PartialEq)]
pub struct Precedence {
    pub level: u32,
    pub kind: AssocKind,
}

impl Precedence {
    /// 0 is none; else 4 × level + kind.
    fn from_word(word: u32) -> Option<Self> {
        let kind = match word % 4 {
            1 => AssocKind::Left,
            2 => AssocKind::Right,
            3 => AssocKind::Nonassoc,
            _ => return None,
        };
        Some(Precedence { level: word / 4, kind })
    }
}

#[derive(Clone, Debug)]
pub struct Grammar {
    tokens_len: usize,
    rules_len: usize,
    prods: Vec<Vec<Symbol>>,
    prods_rules: Vec<RIdx>,
    rules_prods: Vec<Vec<PIdx>>,
    prod_precs: Vec<Option<Precedence>>,
    token_precs: Vec<Option<Precedence>>,
    start_prod: PIdx,
    eof_token_idx: TIdx,
}

impl Grammar {
    /// The grammar of a block, or the number of its refusal.
    pub fn new(block: &[u32]) -> Result<Self, u32> {
        if let Some(number) = refusal(block) {
            return Err(number);
        }
        let w = Words(block);
        let mut rules_prods = vec![Vec::new(); w.rules()];
        for p in 0..w.prods() {
            rules_prods[w.rule(p)].push(p);
        }
        Ok(Grammar {
            tokens_len: w.tokens(),
            rules_len: w.rules(),
            prods: (0..w.prods()).map(|p| w.body(p).iter().map(|&x| Symbol::from_word(x)).collect()).collect(),
            prods_rules: (0..w.prods()).map(|p| w.rule(p)).collect(),
            rules_prods,
            prod_precs: (0..w.prods()).map(|p| Precedence::from_word(w.prod_precedence(p))).collect(),
            token_precs: (0..w.tokens()).map(|t| Precedence::from_word(w.token_precedence(t))).collect(),
            start_prod: w.start(),
            eof_token_idx: w.end(),
        })
    }

    pub fn tokens_len(&self) -> usize {
        self.tokens_len
    }

    pub fn rules_len(&self) -> usize {
        self.rules_len
    }

    pub fn prods_len(&self) -> usize {
        self.prods.len()
    }

    pub fn prod(&self, pidx: PIdx) -> &[Symbol] {
        &self.prods[pidx]
    }

    pub fn prod_len(&self, pidx: PIdx) -> SIdx {
        self.prods[pidx].len()
    }

    pub fn prod_to_rule(&self, pidx: PIdx) -> RIdx {
        self.prods_rules[pidx]
    }

    pub fn rule_to_prods(&self, ridx: RIdx) -> &[PIdx] {
        &self.rules_prods[ridx]
    }

    pub fn prod_precedence(&self, pidx: PIdx) -> Option<Precedence> {
        self.prod_precs[pidx]
    }

    pub fn token_precedence(&self, tidx: TIdx) -> Option<Precedence> {
        self.token_precs[tidx]
    }

    pub fn start_prod(&self) -> PIdx {
        self.start_prod
    }

    pub fn eof_token_idx(&self) -> TIdx {
        self.eof_token_idx
    }

    pub fn iter_tidxs(&self) -> std::ops::Range<TIdx> {
        0..self.tokens_len
    }

    pub fn firsts(&self) -> Firsts {
        Firsts::new(self)
    }
}
