// The calls over label records and a machine in place (liblabel_loader.a, liblabel_run.a): their declarations, the two structs, and safe functions.
// each program uses a part of it
#![allow(dead_code)]

/// A label's definition: where its name starts in the image, the name's length, the target, and the next record's index.
#[repr(C)]
#[derive(Clone, Copy, Debug, PartialEq)]
pub struct Label {
    pub start: u64,
    pub len: u64,
    pub target: u64,
    pub next: u64,
}

/// One machine, where it stays.
#[repr(C)]
#[derive(Clone, PartialEq)]
pub struct Machine {
    pub stack: [u64; 1024],
    pub height: u64,
    pub calls: [u64; 1024],
    pub call_height: u64,
    pub memory: [u8; 1024],
    pub flags: u8,
    pub ip: u64,
    pub halted: bool,
}

/// What a load answers: its number, the fresh machine's pointer and the count.
#[repr(C)]
#[derive(Debug)]
pub struct Loaded {
    pub number: u64,
    pub ip: u64,
    pub count: u64,
}

/// What a run answers: its ending, the steps and the cells dumped.
#[repr(C)]
pub struct Ran(pub u64, pub u64, pub u64);

mod c {
    use super::{Label, Loaded, Machine, Ran};

    extern "C" {
        pub fn mm_load_labels(
            image: *const u8,
            image_len: usize,
            insts: *mut u8,
            insts_len: usize,
            labels: *mut Label,
            labels_len: usize,
        ) -> Loaded;

        pub fn mm_run_in_place(
            image: *const u8,
            image_len: usize,
            insts: *const u8,
            insts_len: usize,
            labels: *const Label,
            labels_len: usize,
            count: u64,
            machine: *mut Machine,
            limit: u64,
            dumps: *mut u8,
            dumps_len: usize,
        ) -> Ran;
    }
}

pub fn load(image: &[u8], insts: &mut [u8], labels: &mut [Label]) -> Loaded {
    // SAFETY: every address is valid for its length, and what is written is lent exclusively.
    unsafe { c::mm_load_labels(image.as_ptr(), image.len(), insts.as_mut_ptr(), insts.len(), labels.as_mut_ptr(), labels.len()) }
}

pub fn run(image: &[u8], insts: &[u8], labels: &[Label], count: u64, machine: &mut Machine, limit: u64, dumps: &mut [u8]) -> Ran {
    // SAFETY: as above.
    unsafe {
        c::mm_run_in_place(
            image.as_ptr(),
            image.len(),
            insts.as_ptr(),
            insts.len(),
            labels.as_ptr(),
            labels.len(),
            count,
            machine,
            limit,
            dumps.as_mut_ptr(),
            dumps.len(),
        )
    }
}

impl Label {
    pub fn bytes(&self) -> [u8; 32] {
        let numbers = [self.start, self.len, self.target, self.next];
        std::array::from_fn(|i| numbers[i / 8].to_le_bytes()[i % 8])
    }
}

impl Machine {
    /// The fresh machine of the pointer that a load answers: zero but for it.
    pub fn fresh(ip: u64) -> Machine {
        Machine { stack: [0; 1024], height: 0, calls: [0; 1024], call_height: 0, memory: [0; 1024], flags: 0, ip, halted: false }
    }

    /// The bytes that the calls over byte slices have for the same machine.
    pub fn bytes(&self) -> Vec<u8> {
        let mut out = Vec::with_capacity(17_434);
        self.stack.iter().chain(&self.calls).for_each(|number| out.extend_from_slice(&number.to_le_bytes()));
        out.extend_from_slice(&self.memory);
        [self.height, self.call_height, self.ip].iter().for_each(|number| out.extend_from_slice(&number.to_le_bytes()));
        out.extend_from_slice(&[self.flags, u8::from(self.halted)]);
        out
    }
}
