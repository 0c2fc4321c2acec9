//! The owning layer: a program and its machines in memory of their own, over the lent layer.

use crate::layout::{self, INSTS_SIZE, LABELS_SIZE, MACHINE_SIZE};
use crate::lent::{self, Words};
use crate::state::{self, state};
use crate::{sys, NotAMachine, Ran, Refusal};
use alloc::boxed::Box;
use alloc::vec;
use alloc::vec::Vec;
use core::fmt;

/// A loaded program: its image, both tables, the count of its instructions and its fresh machine. It never changes, so threads may share it.
#[derive(Clone, PartialEq, Eq)]
pub struct Program {
    image: Vec<u8>,
    insts: Vec<u8>,
    labels: Vec<u8>,
    count: u64,
    fresh: Machine,
}

impl Program {
    /// Loads an image: a `Vec<u8>` is kept, a slice is copied.
    ///
    /// # Errors
    ///
    /// A [`Refusal`] that says what is wrong with the image.
    pub fn load(image: impl Into<Vec<u8>>) -> Result<Program, Refusal> {
        let image = image.into();
        let (mut insts, mut labels, mut fresh) =
            (vec![0; INSTS_SIZE], vec![0; LABELS_SIZE], Machine { bytes: Box::new([0; MACHINE_SIZE]) });
        let (program, _) = lent::Program::load(&image, &mut insts, &mut labels, &mut fresh.bytes)?;
        let count = program.count();
        Ok(Program { image, insts, labels, count, fresh })
    }

    /// The fresh machine: at `_start`, with nothing on its stacks and zero in its memory. Each call gives another one.
    #[must_use]
    pub fn machine(&self) -> Machine {
        self.fresh.clone()
    }

    /// The program written out as an image, the HALT that the load appended included. It loads again, as the same program, and is then written out as the same
    /// bytes, but for one case: where the image had 16,384 bytes and a HALT was appended, a load refuses it with [`Refusal::ImageTooLong`]. Each instruction's
    /// bytes begin at the sum of the lengths of those before it: 1; 9 with a cell or a number; 2 with a stream; 9 and the name with a name. That is proved.
    #[must_use]
    pub fn encode(&self) -> Vec<u8> {
        let mut out = vec![0; self.encoded_size()];
        // proved: what the call for the size answers is what an encoding needs
        self.encode_into(&mut out).expect("the size asked for is enough");
        out
    }

    /// Writes the program out as [`encode`](Program::encode) does and returns what was written: the front of `out`.
    ///
    /// # Errors
    ///
    /// [`Refusal::NoRoom`] where `out` is shorter than [`encoded_size`](Program::encoded_size). Nothing is written then.
    pub fn encode_into<'o>(&self, out: &'o mut [u8]) -> Result<&'o mut [u8], Refusal> {
        self.as_lent().encode(out)
    }

    /// The length of what [`encode`](Program::encode) gives, in bytes, without writing: the image's length, and one byte more exactly if HALT was appended.
    /// That is proved; so the image's length and one byte more, reserved without asking, are always enough.
    #[must_use]
    pub fn encoded_size(&self) -> usize {
        // proved of image, table and count as a load leaves them, and nothing changes them here
        self.as_lent().encoded_size().expect("a loaded program has a size")
    }

    /// The image that it was loaded from.
    pub fn image(&self) -> &[u8] {
        &self.image
    }

    /// How many instructions it has, an appended HALT counted.
    pub fn count(&self) -> u64 {
        self.count
    }

    /// The program as the lent layer has it, to run machines in lent bytes with, or to read its tables.
    pub fn as_lent(&self) -> lent::Program<'_> {
        lent::Program { image: &self.image, insts: &self.insts, labels: &self.labels, count: self.count }
    }
}

impl fmt::Debug for Program {
    fn fmt(&self, f: &mut fmt::Formatter<'_>) -> fmt::Result {
        self.as_lent().fmt(f)
    }
}

/// One machine, from [`Program::machine`]. A clone is a machine of its own in the same state.
#[derive(Clone, PartialEq, Eq)]
pub struct Machine {
    bytes: Box<[u8; MACHINE_SIZE]>,
}

state!(Machine);

impl Machine {
    /// Runs the machine for at most `limit` steps. The program has to be the one that the machine is of: that isn't tested, and with another one the answer
    /// says nothing of either.
    ///
    /// `dumps` has room for as many cells as it is long; what is behind the cells dumped stays as it is.
    pub fn run<'d>(&mut self, program: &Program, limit: u64, dumps: &'d mut [u64]) -> Ran<&'d [u64]> {
        let Ran { ending, steps, dumped } = lent::Machine { bytes: &mut self.bytes }.run(&program.as_lent(), limit, sys::bytes_of(dumps));
        let dumped = dumped.len();
        Ran { ending, steps, dumped: &dumps[..dumped] }
    }

    /// A machine that was stored, as [`as_bytes`](Machine::as_bytes) gave it.
    ///
    /// # Errors
    ///
    /// [`NotAMachine`] where the length or the halted byte is one that no machine has. Other bytes are taken as they are: a run that can't use them ends with
    /// [`Ending::IllState`](crate::Ending::IllState).
    pub fn from_bytes(bytes: &[u8]) -> Result<Machine, NotAMachine> {
        let mut bytes: Box<[u8]> = bytes.into();
        lent::Machine::from_bytes(&mut bytes)?;
        Ok(Machine { bytes: bytes.try_into().expect("its length was tested") })
    }
}
