// What is lent to the host's calls, owned by the oracle: tables and machine as bytes, by the places that the host's Rust crate has.
// each program uses a part of it
#![allow(dead_code)]
#[path = "../host-rust/src/layout.rs"]
pub mod layout;
#[path = "../host-rust/src/sys.rs"]
pub mod sys;

use layout::*;
use sys::{Encoded, Ran};

/// The number in the eight bytes from there on.
pub fn number_at(bytes: &[u8], at: usize) -> u64 {
    u64::from_le_bytes(bytes[at..at + NUMBER_SIZE].try_into().expect("eight bytes"))
}

pub fn put_number(bytes: &mut [u8], at: usize, number: u64) {
    bytes[at..at + NUMBER_SIZE].copy_from_slice(&number.to_le_bytes());
}

/// The numbers of a table, a stack or a dump buffer.
pub fn numbers(bytes: &[u8]) -> impl Iterator<Item = u64> + Clone + '_ {
    bytes.chunks_exact(NUMBER_SIZE).map(|number| number_at(number, 0))
}

/// The records at the front of so many bytes, as far as they fit.
pub fn table(records: &[[u64; 4]], len: usize, fill: u8) -> Vec<u8> {
    let mut out: Vec<u8> = records.iter().flatten().flat_map(|number| number.to_le_bytes()).collect();
    out.resize(len, fill);
    out
}

#[derive(Clone, PartialEq)]
pub struct Machine(pub Vec<u8>);

impl Machine {
    pub fn empty() -> Machine {
        Machine(vec![0; MACHINE_SIZE])
    }

    pub fn number(&self, at: usize) -> u64 {
        number_at(&self.0, at)
    }

    pub fn is_halted(&self) -> bool {
        self.0[HALTED_AT] != 0
    }

    pub fn memory(&self) -> &[u8] {
        &self.0[MEMORY_AT..MEMORY_AT + MEMORY_SIZE]
    }

    /// The cells on the data stack, the last on top.
    pub fn cells(&self) -> impl Iterator<Item = u64> + Clone + '_ {
        numbers(&self.0[STACK_AT..CALLS_AT]).take(self.number(HEIGHT_AT) as usize)
    }

    /// The return addresses, oldest first.
    pub fn addresses(&self) -> impl Iterator<Item = u64> + Clone + '_ {
        numbers(&self.0[CALLS_AT..MEMORY_AT]).take(self.number(CALL_HEIGHT_AT) as usize)
    }
}

/// An image with its tables and the count of its instructions.
pub struct Program<'a> {
    pub image: &'a [u8],
    pub insts: Vec<u8>,
    pub labels: Vec<u8>,
    pub count: u64,
}

impl<'a> Program<'a> {
    /// The program and its fresh machine, or the number of the refusal.
    pub fn load(image: &'a [u8]) -> Result<(Program<'a>, Machine), u64> {
        let (mut insts, mut labels, mut machine) = (vec![0; INSTS_SIZE], vec![0; LABELS_SIZE], Machine::empty());
        let answer = sys::load(image, &mut insts, &mut labels, &mut machine.0);
        match answer.number {
            0 => Ok((Program { image, insts, labels, count: answer.count }, machine)),
            number => Err(number),
        }
    }

    pub fn run(&self, machine: &mut Machine, limit: u64, dumps: &mut [u8]) -> Ran {
        sys::run(self.image, &self.insts, &self.labels, self.count, &mut machine.0, limit, dumps)
    }

    pub fn encode(&self, out: &mut [u8]) -> Encoded {
        sys::encode(self.image, &self.insts, self.count, out)
    }

    pub fn encoded_size(&self) -> Encoded {
        sys::encoded_size(self.image, &self.insts, self.count)
    }

    /// The first byte of the instruction of that index.
    pub fn first_byte(&self, index: u64) -> u64 {
        number_at(&self.insts, RECORD_SIZE * index as usize)
    }
}
