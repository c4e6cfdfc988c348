//! Queries of a cell, goto or mark: the lent word, or a refusal.

use grammar::{refusal, Words, MOST_STATES};

/// Which table is asked.
#[derive(Clone, Copy, Debug, Eq, PartialEq)]
pub enum Kind {
    Action,
    Goto,
    Offered,
    Shift,
    CoreReduce,
    ReduceOnly,
}

impl Kind {
    pub const ALL: [Kind; 6] =
        [Kind::Action, Kind::Goto, Kind::Offered, Kind::Shift, Kind::CoreReduce, Kind::ReduceOnly];

    /// The words that a state has in the table.
    pub fn width(self, w: Words) -> u64 {
        match self {
            Kind::Action | Kind::Offered | Kind::Shift => w.tokens() as u64,
            Kind::Goto => w.rules() as u64,
            Kind::CoreReduce => w.prods() as u64,
            Kind::ReduceOnly => 1,
        }
    }
}

/// The word of `state` and `column` (token, rule or production; 0 for a reduce-only mark) in a table of `states` states.
pub fn query(kind: Kind, block: &[u32], states: u64, table: &[u64], state: u64, column: u64) -> Result<u64, u64> {
    if let Some(number) = refusal(block) {
        return Err(number as u64);
    }
    let width = kind.width(Words(block));
    if !(1..=MOST_STATES).contains(&states) || (table.len() as u64) < states * width {
        return Err(7);
    }
    if state >= states || column >= width {
        return Err(18);
    }
    Ok(table[(state * width + column) as usize])
}
