//! The archive's calls, and the only unsafe code of this crate. This file needs nothing but core: the oracle takes it in as it is.
//!
//! Each function here is safe: its arguments are references, so that every address is valid for its length, what is written is lent exclusively and nothing
//! overlaps. The archive tests everything else itself, for byte slices of any address, length and contents.

/// What `mm_load` answers.
#[repr(C)]
#[derive(Clone, Copy, Debug, PartialEq, Eq)]
pub struct Loaded {
    pub number: u64,
    pub count: u64,
}

/// What `mm_run` answers.
#[repr(C)]
#[derive(Clone, Copy, Debug, PartialEq, Eq)]
pub struct Ran {
    pub ending: u64,
    pub steps: u64,
    pub dumped: u64,
}

/// What `mm_encode` and `mm_encoded_size` answer.
#[repr(C)]
#[derive(Clone, Copy, Debug, PartialEq, Eq)]
pub struct Encoded {
    pub number: u64,
    pub size: u64,
}

mod c {
    use super::{Encoded, Loaded, Ran};

    extern "C" {
        pub fn mm_load(
            image: *const u8,
            image_len: usize,
            insts: *mut u8,
            insts_len: usize,
            labels: *mut u8,
            labels_len: usize,
            machine: *mut u8,
            machine_len: usize,
        ) -> Loaded;

        pub fn mm_run(
            image: *const u8,
            image_len: usize,
            insts: *const u8,
            insts_len: usize,
            labels: *const u8,
            labels_len: usize,
            count: u64,
            machine: *mut u8,
            machine_len: usize,
            limit: u64,
            dumps: *mut u8,
            dumps_len: usize,
        ) -> Ran;

        pub fn mm_encode(
            image: *const u8,
            image_len: usize,
            insts: *const u8,
            insts_len: usize,
            count: u64,
            out: *mut u8,
            out_len: usize,
        ) -> Encoded;

        pub fn mm_encoded_size(image: *const u8, image_len: usize, insts: *const u8, insts_len: usize, count: u64) -> Encoded;
    }
}

/// Loads an image into both tables and makes the machine the fresh one.
pub fn load(image: &[u8], insts: &mut [u8], labels: &mut [u8], machine: &mut [u8]) -> Loaded {
    // SAFETY: see the module.
    unsafe {
        c::mm_load(
            image.as_ptr(),
            image.len(),
            insts.as_mut_ptr(),
            insts.len(),
            labels.as_mut_ptr(),
            labels.len(),
            machine.as_mut_ptr(),
            machine.len(),
        )
    }
}

/// Runs the machine for at most `limit` steps.
pub fn run(image: &[u8], insts: &[u8], labels: &[u8], count: u64, machine: &mut [u8], limit: u64, dumps: &mut [u8]) -> Ran {
    // SAFETY: see the module.
    unsafe {
        c::mm_run(
            image.as_ptr(),
            image.len(),
            insts.as_ptr(),
            insts.len(),
            labels.as_ptr(),
            labels.len(),
            count,
            machine.as_mut_ptr(),
            machine.len(),
            limit,
            dumps.as_mut_ptr(),
            dumps.len(),
        )
    }
}

/// Writes the first `count` instructions out.
pub fn encode(image: &[u8], insts: &[u8], count: u64, out: &mut [u8]) -> Encoded {
    // SAFETY: see the module.
    unsafe { c::mm_encode(image.as_ptr(), image.len(), insts.as_ptr(), insts.len(), count, out.as_mut_ptr(), out.len()) }
}

/// The size that `encode` needs for the same instructions and then answers, without writing.
pub fn encoded_size(image: &[u8], insts: &[u8], count: u64) -> Encoded {
    // SAFETY: see the module.
    unsafe { c::mm_encoded_size(image.as_ptr(), image.len(), insts.as_ptr(), insts.len(), count) }
}

/// The bytes of a buffer of cells. A cell lies there lowest byte first, as the archive writes it: this crate is for x86-64 Linux only.
#[cfg(feature = "alloc")]
pub fn bytes_of(cells: &mut [u64]) -> &mut [u8] {
    // SAFETY: the bytes are those of the slice, lent exclusively for as long; a byte needs no alignment, and any eight bytes are a u64.
    unsafe { core::slice::from_raw_parts_mut(cells.as_mut_ptr().cast(), size_of_val(cells)) }
}
