//! A vector of bits with the few methods of the crate `vob` that lrtable uses.

#[derive(Clone, Debug, Eq, Ord, PartialEq, PartialOrd)]
pub struct Vob {
    words: Vec<u64>,
}

impl Vob {
    /// `len` bits, all off.
    pub fn new(len: usize) -> Self {
        Vob { words: vec![0; len.div_ceil(64)] }
    }

    pub fn has(&self, i: usize) -> bool {
        self.words[i / 64] >> (i % 64) & 1 == 1
    }

    /// Sets bit i; true if that changed it.
    pub fn set(&mut self, i: usize, on: bool) -> bool {
        let changed = self.has(i) != on;
        if changed {
            self.words[i / 64] ^= 1 << (i % 64);
        }
        changed
    }

    pub fn set_all(&mut self, on: bool) {
        let word = if on { u64::MAX } else { 0 };
        self.words.iter_mut().for_each(|w| *w = word);
    }

    /// Joins `other`; true if that changed a bit.
    pub fn or(&mut self, other: &Vob) -> bool {
        let mut changed = false;
        for (w, o) in self.words.iter_mut().zip(&other.words) {
            changed |= *w | *o != *w;
            *w |= *o;
        }
        changed
    }

    pub fn iter_storage(&self) -> impl Iterator<Item = u64> + '_ {
        self.words.iter().copied()
    }

    /// The numbers of the bits that are on, ascending.
    pub fn iter_set_bits(&self) -> impl Iterator<Item = usize> + '_ {
        self.words.iter().enumerate().flat_map(|(i, &word)| {
            let mut rest = word;
            std::iter::from_fn(move || {
                if rest == 0 {
                    return None;
                }
                let bit = rest.trailing_zeros() as usize;
                rest &= rest - 1;
                Some(64 * i + bit)
            })
        })
    }
}
