//! How a run ends, and what it reports.

use crate::numbered::{numbered, UnknownNumber};
use core::error::Error;
use core::fmt;

numbered! {
    /// Why the instruction at the pointer couldn't do its work.
    Trap {
        StackUnderflow = 20, "the instruction needs more cells than the data stack holds";
        StackOverflow = 21, "the data stack is full, at 1,024 cells";
        NoOpenCall = 22, "a return (RET) with no call open";
        CallStackFull = 23, "the call stack is full, at 1,024 return addresses";
        DivisionByZero = 24, "an integer division (IDIV) by zero";
        AddressPastMemory = 25, "a READ or WRITE at an address past the memory's 1,024 bytes";
        NoSuchLabel = 26, "a jump to a label that the program doesn't define";
        NoSuchFunction = 27, "a CALL of a label that the program doesn't define";
        WrongType = 28, "a conversion of a cell whose type it doesn't take";
        NegativeConversion = 29, "a conversion (F2U, I2F or I2U) of a number below zero";
        NotBothI64 = 30, "an integer operation (IADD, ISUB, IMUL or IDIV) on two cells that aren't both I64";
        UnknownType = 31, "an integer operation or a conversion on a cell of unknown type";
        NoSuchStream = 32, "a dump to another stream than 1 and 2";
    }
}

/// How a run ends. A further run goes on where this one stopped.
#[non_exhaustive]
#[derive(Clone, Copy, Debug, PartialEq, Eq, Hash)]
pub enum Ending {
    /// 0: the program halted. A further run takes no step.
    Halted,
    /// 1: as many steps as the limit allows were taken.
    Limit,
    /// 20 to 32: the instruction at the pointer trapped. That step is counted, and a further run tries the same instruction again.
    Trap(Trap),
    /// 33: the instruction at the pointer would dump a cell and the buffer is full. The steps before it are counted. A further run with room in its buffer
    /// goes on; one with no room ends here again, with no step taken.
    BufferFull,
    /// 34: machine, tables and count aren't ones that the image's load and runs leave, so the instruction at the pointer can't be taken. The steps before it
    /// are counted. A further run takes no step.
    IllState,
}

impl Ending {
    /// The number that a run answers with.
    pub const fn number(self) -> u64 {
        match self {
            Ending::Halted => 0,
            Ending::Limit => 1,
            Ending::Trap(trap) => trap.number(),
            Ending::BufferFull => 33,
            Ending::IllState => 34,
        }
    }
}

impl TryFrom<u64> for Ending {
    type Error = UnknownNumber;

    fn try_from(number: u64) -> Result<Ending, UnknownNumber> {
        match number {
            0 => Ok(Ending::Halted),
            1 => Ok(Ending::Limit),
            33 => Ok(Ending::BufferFull),
            34 => Ok(Ending::IllState),
            _ => Trap::try_from(number).map(Ending::Trap),
        }
    }
}

impl fmt::Display for Ending {
    fn fmt(&self, f: &mut fmt::Formatter<'_>) -> fmt::Result {
        let sentence = match self {
            Ending::Halted => "the program halted",
            Ending::Limit => "the limit of steps is reached",
            Ending::Trap(trap) => return trap.fmt(f),
            Ending::BufferFull => "the dump buffer is full",
            Ending::IllState => "machine, tables and count aren't ones that the image's load and runs leave",
        };
        write!(f, "{sentence} ({})", self.number())
    }
}

impl Error for Ending {}

impl From<Trap> for Ending {
    fn from(trap: Trap) -> Ending {
        Ending::Trap(trap)
    }
}

/// What a run reports. `D` is how the cells dumped are seen: the front of the buffer that the run was lent.
#[must_use = "the ending tells a halt from a trap, and whether to run on"]
#[derive(Clone, Copy, Debug, PartialEq, Eq)]
pub struct Ran<D> {
    /// How the run ended.
    pub ending: Ending,
    /// The steps that it took, a trapping one counted.
    pub steps: u64,
    /// The cells that it dumped, in their order.
    pub dumped: D,
}
