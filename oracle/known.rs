// An image whose course is known by document 01: LABEL _start, PUSH, dump, CALL of _start, over and over. What a load, a run and an
// encoding answer and leave follows from what is lent, and is worked out here.
use crate::lent::layout::*;
use crate::lent::{put_number, table};

const CELL: u64 = 0x7FF2_0000_0000_0009;

// Where the two names start, and where the image ends.
const LABEL_NAME: usize = 9;
const CALL_NAME: usize = 35;
const NAME: usize = 6;
pub const IMAGE_LEN: usize = CALL_NAME + NAME;

/// The instructions, the appended HALT included.
pub const COUNT: u64 = 5;
const INSTS: [[u64; 4]; 5] = [[21, 0, LABEL_NAME as u64, 6], [1, CELL, 0, 0], [46, 1, 0, 0], [28, 0, CALL_NAME as u64, 6], [69, 0, 0, 0]];
const LABELS: [[u64; 4]; 2] = [[0, 0, 0, 1], [LABEL_NAME as u64, 6, 0, 0]];

// How long the encoding of the first so many instructions is.
const SIZES: [usize; 6] = [0, 15, 24, 26, IMAGE_LEN, IMAGE_LEN + 1];

pub fn image() -> Vec<u8> {
    let mut out = vec![21, 6, 0, 0, 0, 0, 0, 0, 0];
    out.extend_from_slice(b"_start\x01");
    out.extend_from_slice(&CELL.to_le_bytes());
    out.extend_from_slice(&[46, 1, 28, 6, 0, 0, 0, 0, 0, 0, 0]);
    out.extend_from_slice(b"_start");
    out
}

/// Images and the number that a load with room gives: the one above; cut; no `_start`; no byte; over 16,384 bytes.
pub fn images() -> Vec<(Vec<u8>, u64)> {
    let cut = image()[..IMAGE_LEN - 1].to_vec();
    vec![(image(), 0), (cut, 3), (vec![0x45], 7), (Vec::new(), 7), (vec![0; IMAGE_MAX + 1], 1)]
}

pub fn insts(len: usize, fill: u8) -> Vec<u8> {
    table(&INSTS, len, fill)
}

pub fn labels(len: usize, fill: u8) -> Vec<u8> {
    table(&LABELS, len, fill)
}

/// What a load answers where the lengths are these.
pub fn load_number(of_image: u64, insts: usize, labels: usize, machine: usize) -> u64 {
    match () {
        _ if machine != MACHINE_SIZE => 50,
        _ if insts < INSTS_SIZE || labels < LABELS_SIZE => 10,
        _ => of_image,
    }
}

/// The lengths and numbers that a run of the fresh machine depends on; tables and buffer in records and cells.
pub struct Lengths {
    pub image: usize,
    pub insts: usize,
    pub labels: usize,
    pub count: u64,
    pub limit: u64,
    pub room: u64,
}

impl Lengths {
    // 34 before a step of the instruction at that pointer.
    fn is_ill(&self, pointer: u64) -> bool {
        let named = |start: usize| start + NAME <= self.image;
        let record = match pointer {
            0 => named(LABEL_NAME),
            3 => named(CALL_NAME) && self.labels >= LABELS.len() && named(LABEL_NAME),
            _ => true,
        };
        pointer >= self.count || self.count > self.insts as u64 || !record
    }

    /// Ending, steps and dumped cells of a run of the fresh machine.
    pub fn ran(&self) -> [u64; 3] {
        let (mut steps, mut dumped) = (0, 0);
        loop {
            let pointer = steps % 4;
            if steps == self.limit {
                return [1, steps, dumped];
            } else if self.is_ill(pointer) {
                return [34, steps, dumped];
            } else if pointer == 2 && dumped == self.room {
                return [33, steps, dumped];
            } else if pointer == 1 && steps / 4 == STACK_SLOTS as u64 {
                return [21, steps + 1, dumped];
            }
            dumped += u64::from(pointer == 2);
            steps += 1;
        }
    }

    /// Number and size of an encoding. What lies behind the program in the table is no record.
    pub fn encoded(&self) -> [u64; 3] {
        let named = |i: u64, start: usize| self.count <= i || start + NAME <= self.image;
        let ill = self.count > COUNT.min(self.insts as u64) || !named(0, LABEL_NAME) || !named(3, CALL_NAME);
        match () {
            _ if ill => [9, 0, 0],
            _ if self.room < SIZES[self.count as usize] as u64 => [10, 0, 0],
            _ => [0, SIZES[self.count as usize] as u64, 0],
        }
    }
}

/// The machine that a run leaves, by its ending and steps; the fresh one after none.
pub fn machine([ending, steps, _]: [u64; 3]) -> Vec<u8> {
    let done = steps - u64::from(ending == 21);
    let (height, calls) = ((done + 2) / 4, done / 4);
    let mut out = vec![0; MACHINE_SIZE];
    (0..height as usize).for_each(|i| put_number(&mut out, STACK_AT + NUMBER_SIZE * i, CELL));
    (0..calls as usize).for_each(|i| put_number(&mut out, CALLS_AT + NUMBER_SIZE * i, 4));
    put_number(&mut out, HEIGHT_AT, height);
    put_number(&mut out, CALL_HEIGHT_AT, calls);
    put_number(&mut out, POINTER_AT, done % 4);
    out
}

/// The buffer of that length that a run leaves.
pub fn dumps(dumped: u64, len: usize, fill: u8) -> Vec<u8> {
    let mut out = CELL.to_le_bytes().repeat(dumped as usize);
    out.resize(len, fill);
    out
}

/// The output of that length that an encoding leaves.
pub fn output(size: u64, len: usize, fill: u8) -> Vec<u8> {
    let mut out = [image(), vec![69]].concat()[..size as usize].to_vec();
    out.resize(len, fill);
    out
}
