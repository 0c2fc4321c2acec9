// A call of the host on slices that each stand in a block of their own: what it answers, and what it leaves there.
use crate::blocks::{count_call, Block, Place};
use crate::lent::layout::{ENCODED_MAX, INSTS_SIZE, LABELS_SIZE, MACHINE_SIZE};
use crate::lent::sys;

pub const INSTS: usize = 1;
pub const LABELS: usize = 2;
pub const MACHINE: usize = 3;
/// The dump buffer of a run or the output of an encoding.
pub const OUT: usize = 4;
pub const SLICES: usize = 5;

/// What is lent: the image, and the others by the numbers above.
pub type Lent = [Vec<u8>; SLICES];

#[derive(Clone, Copy, Debug)]
pub enum Call {
    Load,
    Run { count: u64, limit: u64 },
    Encode { count: u64 },
    Size { count: u64 },
}

// Room beside a slice for any place modulo eight, and for lengths a little over what a load wants.
const SPARE: usize = 128;
const PAGE: usize = 4096;

// The blocks of one slice: marks are looked at in the one that is used, so a short slice has the first, a small one.
struct Slot {
    blocks: [Block; 2],
    used: usize,
}

impl Slot {
    fn new(blocks: [Block; 2]) -> Slot {
        Slot { blocks, used: 0 }
    }

    fn put(&mut self, bytes: &[u8], place: Place) {
        self.used = usize::from(bytes.len() > PAGE - SPARE);
        self.blocks[self.used].put(bytes, place);
    }

    fn block(&self) -> &Block {
        &self.blocks[self.used]
    }

    fn lent(&mut self) -> &mut [u8] {
        self.blocks[self.used].lent()
    }
}

pub struct Stand([Slot; SLICES]);

impl Stand {
    pub fn guarded() -> Stand {
        let rooms = [ENCODED_MAX, INSTS_SIZE, LABELS_SIZE, MACHINE_SIZE, 2 * ENCODED_MAX];
        Stand(rooms.map(|room| Slot::new([Block::guarded(PAGE), Block::guarded(room + SPARE)])))
    }

    pub fn heap() -> Stand {
        Stand(std::array::from_fn(|_| Slot::new([Block::heap(), Block::heap()])))
    }

    /// Puts the slices in place and makes the call. An encoding isn't lent labels and machine, a load no output, a size none of the three.
    pub fn call(&mut self, call: Call, lent: &Lent, places: [Place; SLICES]) -> Result<[u64; 3], String> {
        for (i, slot) in self.0.iter_mut().enumerate() {
            slot.put(&lent[i], places[i]);
        }
        count_call();
        let [image, insts, labels, machine, out] = self.0.each_mut().map(Slot::lent);
        let answer = match call {
            Call::Load => {
                let sys::Loaded { number, count } = sys::load(image, insts, labels, machine);
                [number, count, 0]
            }
            Call::Run { count, limit } => {
                let sys::Ran { ending, steps, dumped } = sys::run(image, insts, labels, count, machine, limit, out);
                [ending, steps, dumped]
            }
            Call::Encode { count } => {
                let sys::Encoded { number, size } = sys::encode(image, insts, count, out);
                [number, size, 0]
            }
            Call::Size { count } => {
                let sys::Encoded { number, size } = sys::encoded_size(image, insts, count);
                [number, size, 0]
            }
        };
        match self.0.iter().position(|slot| !slot.block().is_marked()) {
            Some(i) => Err(format!("a byte beside slice {i} was written")),
            None => Ok(answer),
        }
    }

    pub fn left(&self, slice: usize) -> &[u8] {
        self.0[slice].block().bytes()
    }
}
