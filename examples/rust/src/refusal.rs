//! Why a call was refused.

use crate::numbers::*;
use core::error::Error;
use core::fmt;

/// A refused call: it wrote nothing and left the state as it was.
#[derive(Clone, Copy, Debug, PartialEq, Eq, Hash)]
pub enum Refusal {
    /// 1: k is not one of the four.
    Block,
    /// 2: not one of the six speeds.
    Speed,
    /// 3: a loop above the table's entry, or no entry.
    Loop,
    /// 4: an order of 0 bits.
    Empty,
    /// 5: an order above [`LONGEST_ORDER`](crate::LONGEST_ORDER) bits.
    Long,
    /// 6: a slice cannot hold what the call reads or writes.
    Short,
    /// 7: no state, a field outside its range, or service bits above 15.
    Spoiled,
    /// 8: the sender is finished or gave up.
    Rest,
    /// 9: a code size other than 5 to 8.
    CodeSize,
    /// 10: no tint order, by its version or its length, or no doses to write.
    Format,
    /// 11: a dose out of range or order, or more than [`MOST_DOSES`](crate::MOST_DOSES) to write.
    Entry,
    /// 12: a tint order of more than 20,000 pump steps in all.
    Steps,
    /// 13: a noise generator whose first word is 0.
    Generator,
    /// A number that [`VERSION`](crate::VERSION) does not have: the library is of another version.
    Unknown(u32),
}

impl Refusal {
    pub(crate) fn of(number: u32) -> Refusal {
        match number {
            REFUSED_BLOCK => Refusal::Block,
            REFUSED_SPEED => Refusal::Speed,
            REFUSED_LOOP => Refusal::Loop,
            REFUSED_EMPTY => Refusal::Empty,
            REFUSED_LONG => Refusal::Long,
            REFUSED_SHORT => Refusal::Short,
            REFUSED_SPOILED => Refusal::Spoiled,
            REFUSED_REST => Refusal::Rest,
            REFUSED_CODE_SIZE => Refusal::CodeSize,
            REFUSED_FORMAT => Refusal::Format,
            REFUSED_ENTRY => Refusal::Entry,
            REFUSED_STEPS => Refusal::Steps,
            REFUSED_GENERATOR => Refusal::Generator,
            _ => Refusal::Unknown(number),
        }
    }

    /// Its number: docs/PROTOCOL.md, "What the ends turn away".
    pub fn number(self) -> u32 {
        match self {
            Refusal::Block => REFUSED_BLOCK,
            Refusal::Speed => REFUSED_SPEED,
            Refusal::Loop => REFUSED_LOOP,
            Refusal::Empty => REFUSED_EMPTY,
            Refusal::Long => REFUSED_LONG,
            Refusal::Short => REFUSED_SHORT,
            Refusal::Spoiled => REFUSED_SPOILED,
            Refusal::Rest => REFUSED_REST,
            Refusal::CodeSize => REFUSED_CODE_SIZE,
            Refusal::Format => REFUSED_FORMAT,
            Refusal::Entry => REFUSED_ENTRY,
            Refusal::Steps => REFUSED_STEPS,
            Refusal::Generator => REFUSED_GENERATOR,
            Refusal::Unknown(number) => number,
        }
    }
}

impl fmt::Display for Refusal {
    fn fmt(&self, f: &mut fmt::Formatter<'_>) -> fmt::Result {
        let reason = match self {
            Refusal::Block => "a block has 240, 480, 960 or 3840 data bits",
            Refusal::Speed => "the line's speed is 200, 600, 1200, 2400, 3600 or 4800 bit/s",
            Refusal::Loop => "the loop time is too long for this block and speed",
            Refusal::Empty => "the order is empty",
            Refusal::Long => "the order is too long",
            Refusal::Short => "a slice is too short",
            Refusal::Spoiled => "the state is spoiled, or service bits are above 15",
            Refusal::Rest => "the sender is finished or gave up",
            Refusal::CodeSize => "the code size is 5, 6, 7 or 8",
            Refusal::Format => "the bytes are no tint order, or there are no doses to write",
            Refusal::Entry => {
                "a dose has canister 1 to 12, 1 to 4,800 steps and a canister above the one before"
            }
            Refusal::Steps => "a tint order has 20,000 steps or fewer in all",
            Refusal::Generator => "the first word of a noise generator is any number but 0",
            Refusal::Unknown(_) => "the library is of another version",
        };
        write!(f, "refused {}: {reason}", self.number())
    }
}

impl Error for Refusal {}

/// Nothing, if a call returned 0, and otherwise why it was refused.
pub(crate) fn done(number: u8) -> Result<(), Refusal> {
    match number {
        0 => Ok(()),
        refusal => Err(Refusal::of(refusal.into())),
    }
}
