//! What a caller names, and the words that each buffer needs then (docs/ROOMS.md).
use crate::{Refusal, Sizes};

pub const STATES: usize = 4096;
pub const ITEMS: usize = 65536;
pub const RECORDS: usize = 65536;
pub const INPUT: usize = 4096;
pub const STEPS: usize = 1_000_000;

/// States and kernel items before collection, and records of the two lists.
#[derive(Clone, Copy, Debug, PartialEq, Eq)]
pub struct Rooms {
    pub states: usize,
    pub items: usize,
    pub rr: usize,
    pub sr: usize,
}

impl Rooms {
    /// Enough for most grammars; `build_growing` begins here.
    pub const SMALL: Rooms = Rooms { states: 64, items: 256, rr: 16, sr: 16 };
    pub const MOST: Rooms = Rooms { states: STATES, items: ITEMS, rr: RECORDS, sr: RECORDS };

    /// Twice the room that was short, up to the limits; none where it is at its limit, or another refusal is the reason.
    pub fn grown(self, refusal: Refusal) -> Option<Rooms> {
        let twice = |n: usize, most: usize| (2 * n.max(1)).min(most);
        let next = match refusal {
            Refusal::StateRoom => Rooms { states: twice(self.states, STATES), ..self },
            Refusal::ItemRoom => Rooms { items: twice(self.items, ITEMS), ..self },
            Refusal::ConflictRoom => Rooms { rr: twice(self.rr, RECORDS), sr: twice(self.sr, RECORDS), ..self },
            _ => self,
        };
        (next != self).then_some(next)
    }

    pub fn items_words(&self) -> usize {
        5 * self.items
    }

    pub fn spans_words(&self) -> usize {
        2 * self.states
    }

    pub fn edges_words(&self, z: &Sizes) -> usize {
        self.states * (z.rules + z.tokens)
    }

    /// Also of the offered marks and the shift marks.
    pub fn actions_words(&self, z: &Sizes) -> usize {
        self.states * z.tokens
    }

    pub fn gotos_words(&self, z: &Sizes) -> usize {
        self.states * z.rules
    }

    pub fn cores_words(&self, z: &Sizes) -> usize {
        self.states * z.prods
    }

    pub fn rr_words(&self) -> usize {
        4 * self.rr
    }

    pub fn sr_words(&self) -> usize {
        3 * self.sr
    }

    pub fn marks_words(&self) -> usize {
        2 * self.states
    }

    pub fn closed_words(z: &Sizes) -> usize {
        5 * (z.symbols + z.prods)
    }

    pub fn kernel_words(z: &Sizes) -> usize {
        5 * z.symbols
    }
}
