//! The refusals 1 to 18, by name.
use std::fmt;

#[derive(Clone, Copy, Debug, PartialEq, Eq)]
#[repr(u32)]
pub enum Refusal {
    BadHeader = 1,
    TooLarge,
    BadProduction,
    BadStart,
    BadSymbol,
    BadPrecedence,
    RoomShort,
    StateRoom,
    ItemRoom,
    ConflictRoom,
    AcceptReduce,
    MixedKinds,
    BadToken,
    StackRoom,
    OutputRoom,
    OutOfSteps,
    BadTable,
    NoSuch,
}

use Refusal::*;

const ALL: [(Refusal, &str); 18] = [
    (BadHeader, "BAD_HEADER"),
    (TooLarge, "TOO_LARGE"),
    (BadProduction, "BAD_PRODUCTION"),
    (BadStart, "BAD_START"),
    (BadSymbol, "BAD_SYMBOL"),
    (BadPrecedence, "BAD_PRECEDENCE"),
    (RoomShort, "ROOM_SHORT"),
    (StateRoom, "STATE_ROOM"),
    (ItemRoom, "ITEM_ROOM"),
    (ConflictRoom, "CONFLICT_ROOM"),
    (AcceptReduce, "ACCEPT_REDUCE"),
    (MixedKinds, "MIXED_KINDS"),
    (BadToken, "BAD_TOKEN"),
    (StackRoom, "STACK_ROOM"),
    (OutputRoom, "OUTPUT_ROOM"),
    (OutOfSteps, "OUT_OF_STEPS"),
    (BadTable, "BAD_TABLE"),
    (NoSuch, "NO_SUCH"),
];

impl Refusal {
    /// 0 is none. The library gives no number above 18.
    pub fn of(number: u64) -> Option<Refusal> {
        match number {
            0 => None,
            n => Some(ALL[n as usize - 1].0),
        }
    }

    pub fn number(self) -> u32 {
        self as u32
    }

    pub fn name(self) -> &'static str {
        ALL[self as usize - 1].1
    }
}

impl fmt::Display for Refusal {
    fn fmt(&self, f: &mut fmt::Formatter) -> fmt::Result {
        write!(f, "{} ({})", self.name(), self.number())
    }
}

impl std::error::Error for Refusal {}
