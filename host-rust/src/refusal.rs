//! Why a load or an encoding is refused, and why bytes are no machine.

use crate::layout::MACHINE_SIZE;
use crate::numbered::numbered;
use core::error::Error;
use core::fmt;

numbered! {
    /// Why a load, an encoding or the question for its size was refused. Nothing was written then.
    ///
    /// A load gives 1 to 8 and 10, an encoding 9 and 10, the question for its size 9 (and 10 where no output would have the room).
    Refusal {
        ImageTooLong = 1, "the image is longer than 16,384 bytes";
        UndefinedByte = 2, "an instruction starts with a byte that stands for no instruction";
        PastEnd = 3, "an instruction's operand or name goes past the end of the image, or its name has a negative length";
        NameByte = 4, "a name has a byte of 128 or more";
        TooManyInstructions = 5, "the program has more than 4,096 instructions, the HALT that a load appends counted";
        TooManyLabels = 6, "the program defines more than 512 labels";
        NoStart = 7, "the program defines no label _start";
        Native = 8, "the program has a NATIVE instruction, and there is no native function to call";
        IllRecord = 9, "the instruction table has an ill record, or fewer records than its count says";
        NoRoom = 10, "a table is shorter than a load needs, or the output shorter than the program written out, or no output would be long enough";
    }
}

/// Why bytes are no machine. The calls answer 50 to such bytes; this crate tests them before a call.
#[non_exhaustive]
#[derive(Clone, Copy, Debug, PartialEq, Eq, Hash)]
pub enum NotAMachine {
    /// There are so many bytes, not [`MACHINE_SIZE`].
    Length(usize),
    /// The byte at [`HALTED_AT`](crate::layout::HALTED_AT) is this, neither 0 nor 1.
    Halted(u8),
}

impl NotAMachine {
    /// The number that the calls answer with: 50.
    pub const fn number(self) -> u64 {
        50
    }
}

impl fmt::Display for NotAMachine {
    fn fmt(&self, f: &mut fmt::Formatter<'_>) -> fmt::Result {
        match self {
            NotAMachine::Length(length) => write!(f, "a machine has {MACHINE_SIZE} bytes, not {length} (50)"),
            NotAMachine::Halted(byte) => write!(f, "a machine's halted byte is 0 or 1, not {byte} (50)"),
        }
    }
}

impl Error for NotAMachine {}
