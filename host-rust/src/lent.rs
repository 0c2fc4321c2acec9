//! Load, run and encode over memory that the caller lends: nothing is allocated, and nothing has to be aligned.
//!
//! Use this layer where there is no allocator, where the memory is fixed beforehand, or where machines lie in memory that something else owns (a file mapped
//! in, a record of a medium). Elsewhere the [owning layer](crate) is shorter to write.
//!
//! ```
//! use mm_host::layout::{INSTS_SIZE, LABELS_SIZE, MACHINE_SIZE};
//! use mm_host::lent::Program;
//! use mm_host::Ending;
//!
//! // LABEL _start, PUSH 2, PUSH 3, IMUL, dump to stream 1; HALT is appended
//! let image = [
//!     0x15, 6, 0, 0, 0, 0, 0, 0, 0, b'_', b's', b't', b'a', b'r', b't',
//!     0x01, 2, 0, 0, 0, 0, 0, 0xF2, 0x7F, 0x01, 3, 0, 0, 0, 0, 0, 0xF2, 0x7F, 0x07, 0x1B, 1,
//! ];
//! let (mut insts, mut labels, mut machine) = ([0; INSTS_SIZE], [0; LABELS_SIZE], [0; MACHINE_SIZE]);
//! let (program, mut machine) = Program::load(&image, &mut insts, &mut labels, &mut machine)?;
//! let mut dumps = [0; 8 * 4]; // room for four cells
//! let ran = machine.run(&program, 10_000, &mut dumps);
//! assert_eq!((ran.ending, ran.steps), (Ending::Halted, 6));
//! assert_eq!(ran.dumped, [0x7FF2_0000_0000_0006]);
//! // the room to reserve before the program is written out: HALT was appended
//! assert_eq!(program.encoded_size()?, image.len() + 1);
//! # Ok::<(), mm_host::Refusal>(())
//! ```

use crate::layout::{self, MACHINE_SIZE, NUMBER_SIZE};
use crate::state::{self, state};
use crate::{sys, Ending, NotAMachine, Ran, Refusal};
use core::fmt;

pub use crate::words::{Iter, Words};

/// A loaded program: its image, both tables and the count of its instructions. They are lent for as long as it lives, so none of them can change.
#[derive(Clone, Copy, PartialEq, Eq)]
pub struct Program<'a> {
    pub(crate) image: &'a [u8],
    pub(crate) insts: &'a [u8],
    pub(crate) labels: &'a [u8],
    pub(crate) count: u64,
}

// What a call answered as its number: 0 is success.
fn accepted(number: u64) -> Result<(), Refusal> {
    match number {
        0 => Ok(()),
        _ => Err(Refusal::try_from(number).expect("the archive answers a refusal")),
    }
}

impl<'a> Program<'a> {
    /// Loads an image into the tables and makes the machine the fresh one.
    ///
    /// The tables have at least [`INSTS_SIZE`](layout::INSTS_SIZE) and [`LABELS_SIZE`](layout::LABELS_SIZE) bytes. What tables and machine held before doesn't
    /// matter. For a second fresh machine keep a copy of the first one's bytes.
    ///
    /// # Errors
    ///
    /// A [`Refusal`] of the image, or [`Refusal::NoRoom`] where a table is shorter. Nothing is written then.
    pub fn load<'m>(
        image: &'a [u8],
        insts: &'a mut [u8],
        labels: &'a mut [u8],
        machine: &'m mut [u8; MACHINE_SIZE],
    ) -> Result<(Program<'a>, Machine<'m>), Refusal> {
        let loaded = sys::load(image, insts, labels, machine);
        accepted(loaded.number)?;
        Ok((Program { image, insts, labels, count: loaded.count }, Machine { bytes: machine }))
    }

    /// Writes the program out as an image, the appended HALT included, and returns what was written: the front of `out`.
    ///
    /// It takes the length of the image that it was loaded from, and one byte more exactly if HALT was appended. What is written loads again, as the same
    /// program, unless that byte makes it longer than 16,384 bytes, and writing that gives the same bytes. Each instruction's bytes begin at the sum of the
    /// lengths of those before it: 1; 9 with a cell or a number; 2 with a stream; 9 and the name with a name. All this is proved.
    ///
    /// # Errors
    ///
    /// [`Refusal::NoRoom`] where `out` is shorter than [`encoded_size`](Program::encoded_size). Nothing is written then.
    pub fn encode<'o>(&self, out: &'o mut [u8]) -> Result<&'o mut [u8], Refusal> {
        let encoded = sys::encode(self.image, self.insts, self.count, out);
        accepted(encoded.number)?;
        Ok(&mut out[..encoded.size as usize])
    }

    /// The room that [`encode`](Program::encode) needs, in bytes, without writing: what it then returns has this length. To reserve room without asking,
    /// reserve the image's length and one byte more, which is always enough.
    ///
    /// # Errors
    ///
    /// [`Refusal::IllRecord`] where a record is ill, or the table has fewer than the count; [`Refusal::NoRoom`] where no output would have the room. Both are
    /// proved not to happen while image and table are as the load left them, and safe code can't change them.
    pub fn encoded_size(&self) -> Result<usize, Refusal> {
        let encoded = sys::encoded_size(self.image, self.insts, self.count);
        accepted(encoded.number)?;
        Ok(encoded.size as usize)
    }

    /// The image that it was loaded from.
    pub fn image(&self) -> &'a [u8] {
        self.image
    }

    /// The instruction table: records of [`RECORD_SIZE`](layout::RECORD_SIZE) bytes, of which the first [`count`](Program::count) are the program's.
    pub fn insts(&self) -> &'a [u8] {
        self.insts
    }

    /// The label table: records of [`RECORD_SIZE`](layout::RECORD_SIZE) bytes, the first of which is the chain's head.
    pub fn labels(&self) -> &'a [u8] {
        self.labels
    }

    /// How many instructions it has, an appended HALT counted.
    pub fn count(&self) -> u64 {
        self.count
    }
}

impl fmt::Debug for Program<'_> {
    fn fmt(&self, f: &mut fmt::Formatter<'_>) -> fmt::Result {
        f.debug_struct("Program").field("image_len", &self.image.len()).field("count", &self.count).finish_non_exhaustive()
    }
}

/// A machine in lent bytes.
#[derive(PartialEq, Eq)]
pub struct Machine<'a> {
    pub(crate) bytes: &'a mut [u8; MACHINE_SIZE],
}

state!(Machine<'_>);

impl<'a> Machine<'a> {
    /// Takes up a machine that lies in these bytes, as a load or a run left it.
    ///
    /// # Errors
    ///
    /// [`NotAMachine`] where their length or their halted byte is one that no machine has. Other bytes are taken as they are: a run that can't use them ends
    /// with [`Ending::IllState`].
    pub fn from_bytes(bytes: &'a mut [u8]) -> Result<Machine<'a>, NotAMachine> {
        let length = bytes.len();
        let bytes: &mut [u8; MACHINE_SIZE] = bytes.try_into().map_err(|_| NotAMachine::Length(length))?;
        match bytes[layout::HALTED_AT] {
            0 | 1 => Ok(Machine { bytes }),
            other => Err(NotAMachine::Halted(other)),
        }
    }

    /// Runs the machine for at most `limit` steps. The program has to be the one that the machine is of: that isn't tested, and with another one the answer
    /// says nothing of either.
    ///
    /// `dumps` has room for a cell in every eight bytes; bytes behind the cells dumped stay as they are.
    pub fn run<'d>(&mut self, program: &Program<'_>, limit: u64, dumps: &'d mut [u8]) -> Ran<Words<'d>> {
        let ran = sys::run(program.image, program.insts, program.labels, program.count, self.bytes, limit, dumps);
        let ending = Ending::try_from(ran.ending).expect("the archive answers an ending");
        Ran { ending, steps: ran.steps, dumped: Words::new(&dumps[..ran.dumped as usize * NUMBER_SIZE]) }
    }
}

// The public functions give no program with another table or count than a load's, so this is tested here.
#[cfg(test)]
mod tests {
    use super::Program;
    use crate::layout::{INSTS_SIZE, INST_MAX, LABELS_SIZE, MACHINE_SIZE, RECORD_SIZE};
    use crate::Refusal;

    fn assert_ill(program: Program<'_>) {
        let mut out = [0xEE; 16];
        assert_eq!(program.encoded_size(), Err(Refusal::IllRecord));
        assert_eq!(program.encode(&mut out), Err(Refusal::IllRecord));
        assert_eq!(out, [0xEE; 16]);
    }

    // The program with one byte of its first record changed.
    fn assert_ill_with(program: Program<'_>, at: usize, byte: u8) {
        let mut insts = [0; INSTS_SIZE];
        insts.copy_from_slice(program.insts);
        insts[at] = byte;
        assert_ill(Program { insts: &insts, ..program });
    }

    #[test]
    fn an_ill_table_has_no_size() {
        // LABEL _start; HALT is appended
        let image = *b"\x15\x06\0\0\0\0\0\0\0_start";
        let (mut insts, mut labels, mut machine) = ([0; INSTS_SIZE], [0; LABELS_SIZE], [0; MACHINE_SIZE]);
        let (program, _) = Program::load(&image, &mut insts, &mut labels, &mut machine).expect("it loads");
        assert_eq!((program.count, program.encoded_size()), (2, Ok(16)));
        // 277 for the first byte; a cell beside a name; a name that ends behind the image
        assert_ill_with(program, 1, 1);
        assert_ill_with(program, 8, 1);
        assert_ill_with(program, 24, 7);
        // a byte is missing of the second record; a record is missing of all that the table has room for
        assert_ill(Program { insts: &program.insts[..2 * RECORD_SIZE - 1], ..program });
        assert_ill(Program { count: INST_MAX as u64 + 1, ..program });
    }

    #[test]
    fn the_size_of_the_first_instructions_is_where_the_next_begins() {
        // LABEL _start, LABEL of no name, PUSH, FDMP, INC; HALT is appended
        let image = *b"\x15\x06\0\0\0\0\0\0\0_start\x15\0\0\0\0\0\0\0\0\x01\x05\0\0\0\0\0\xF2\x7F\x2E\x01\x03";
        let (mut insts, mut labels, mut machine) = ([0; INSTS_SIZE], [0; LABELS_SIZE], [0; MACHINE_SIZE]);
        let (program, _) = Program::load(&image, &mut insts, &mut labels, &mut machine).expect("it loads");
        for (count, size) in [0, 15, 24, 33, 35, 36, 37].into_iter().enumerate() {
            let first = Program { count: count as u64, ..program };
            let (mut out, mut whole) = ([0xEE; 37], [0xEE; 37]);
            assert_eq!(first.encoded_size(), Ok(size));
            assert_eq!(first.encode(&mut out).map(|written| &*written), Ok(&program.encode(&mut whole).expect("it fits")[..size]));
            assert_eq!(out[size..], [0xEE; 37][size..]);
        }
    }
}
