// Blocks of memory for one slice each. A guarded block lies between two pages that may not be touched, so that a byte read or written
// beyond it ends the program; a heap block ends where its slice ends, so that valgrind sees the same. Bytes beside the slice hold a mark.
use std::ffi::{c_int, c_long, c_void};
use std::ops::Range;
use std::sync::atomic::{AtomicU64, Ordering};

extern "C" {
    fn mmap(at: *mut c_void, len: usize, prot: c_int, flags: c_int, file: c_int, offset: c_long) -> *mut c_void;
    fn mprotect(at: *mut c_void, len: usize, prot: c_int) -> c_int;
    fn signal(number: c_int, handler: extern "C" fn(c_int)) -> usize;
    fn write(file: c_int, bytes: *const u8, len: usize) -> isize;
    fn _exit(status: c_int) -> !;
}

// Linux's numbers
const NONE: c_int = 0;
const READ_WRITE: c_int = 3;
const PRIVATE_ANONYMOUS: c_int = 0x22;
const SEGV: c_int = 11;
const BUS: c_int = 7;
const PAGE: usize = 4096;

const MARK: u8 = 0xA5;

/// Where a slice stands in its block: so many bytes behind the page before it, or before the page behind it. In the heap it ends with the block.
#[derive(Clone, Copy, Debug)]
pub enum Place {
    Front(usize),
    Back(usize),
}

impl Place {
    /// The same but for so many bytes, modulo eight.
    pub fn moved(self, by: usize) -> Place {
        match self {
            Place::Front(gap) => Place::Front((gap + by) % 8),
            Place::Back(gap) => Place::Back((gap + by) % 8),
        }
    }
}

enum Memory {
    Guarded(&'static mut [u8]),
    Heap(Box<[u8]>),
}

pub struct Block {
    memory: Memory,
    slice: Range<usize>,
}

impl Block {
    /// So many bytes, and up to a page more, between two pages that may not be touched.
    pub fn guarded(room: usize) -> Block {
        let inner = room.next_multiple_of(PAGE);
        // SAFETY: the pages are fresh, nothing else has them, and they stay until the program ends.
        let memory = unsafe {
            let pages = mmap(std::ptr::null_mut(), inner + 2 * PAGE, NONE, PRIVATE_ANONYMOUS, -1, 0);
            assert!(pages as isize != -1, "no memory");
            let first = pages.cast::<u8>().add(PAGE);
            assert_eq!(mprotect(first.cast(), inner, READ_WRITE), 0, "no pages to write to");
            std::slice::from_raw_parts_mut(first, inner)
        };
        memory.fill(MARK);
        Block { memory: Memory::Guarded(memory), slice: 0..0 }
    }

    pub fn heap() -> Block {
        Block { memory: Memory::Heap(Box::new([])), slice: 0..0 }
    }

    /// Puts a copy of the bytes there.
    pub fn put(&mut self, bytes: &[u8], place: Place) {
        let (Place::Front(gap) | Place::Back(gap)) = place;
        let at = match &mut self.memory {
            Memory::Guarded(memory) => {
                memory[self.slice.clone()].fill(MARK);
                if matches!(place, Place::Front(_)) {
                    gap
                } else {
                    memory.len() - gap - bytes.len()
                }
            }
            Memory::Heap(memory) => {
                *memory = vec![MARK; gap + bytes.len()].into_boxed_slice();
                gap
            }
        };
        self.slice = at..at + bytes.len();
        self.lent().copy_from_slice(bytes);
    }

    pub fn lent(&mut self) -> &mut [u8] {
        let slice = self.slice.clone();
        match &mut self.memory {
            Memory::Guarded(memory) => &mut memory[slice],
            Memory::Heap(memory) => &mut memory[slice],
        }
    }

    pub fn bytes(&self) -> &[u8] {
        &self.memory()[self.slice.clone()]
    }

    fn memory(&self) -> &[u8] {
        match &self.memory {
            Memory::Guarded(memory) => memory,
            Memory::Heap(memory) => memory,
        }
    }

    /// Whether every byte of the block beside the slice holds its mark.
    pub fn is_marked(&self) -> bool {
        let marked = |bytes: &[u8]| bytes.iter().fold(true, |so_far, byte| so_far & (*byte == MARK));
        marked(&self.memory()[..self.slice.start]) && marked(&self.memory()[self.slice.end..])
    }
}

static CALLS: AtomicU64 = AtomicU64::new(0);

/// Counts a call, so that a fault in it can be told.
pub fn count_call() {
    CALLS.fetch_add(1, Ordering::Relaxed);
}

pub fn calls() -> u64 {
    CALLS.load(Ordering::Relaxed)
}

// Nothing here but what a handler may do: no allocation, no lock.
extern "C" fn touched(_: c_int) {
    let mut line = *b"call 00000000000000000000 touched a byte outside what is lent\n";
    let mut left = calls();
    for digit in line[5..25].iter_mut().rev() {
        *digit += (left % 10) as u8;
        left /= 10;
    }
    // SAFETY: both are C's, with the lengths that they ask for.
    unsafe {
        write(2, line.as_ptr(), line.len());
        _exit(1)
    }
}

/// From here on a byte touched outside the blocks ends the program with the number of the call.
pub fn watch() {
    // SAFETY: the handler does only what a handler may.
    unsafe {
        signal(SEGV, touched);
        signal(BUS, touched);
    }
}
