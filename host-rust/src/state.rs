//! What a machine holds, read off its bytes: the same methods for the lent and the owning machine.

use crate::layout::{MACHINE_SIZE, NUMBER_SIZE};
use crate::words::Words;

/// The number at a place.
pub fn number(bytes: &[u8; MACHINE_SIZE], at: usize) -> u64 {
    Words::new(&bytes[at..at + NUMBER_SIZE]).last().expect("a number lies there")
}

/// The first numbers of a stack, as many as its height says and it has slots.
pub fn stacked(bytes: &[u8; MACHINE_SIZE], at: usize, slots: usize, height: u64) -> Words<'_> {
    let shown = height.min(slots as u64) as usize;
    Words::new(&bytes[at..at + shown * NUMBER_SIZE])
}

macro_rules! state {
    ($machine:ty) => {
        impl $machine {
            /// The cells on the data stack, the last on top.
            pub fn cells(&self) -> Words<'_> {
                state::stacked(&self.bytes, layout::STACK_AT, layout::STACK_SLOTS, state::number(&self.bytes, layout::HEIGHT_AT))
            }

            /// The return addresses of the open calls, the last on top.
            pub fn addresses(&self) -> Words<'_> {
                state::stacked(&self.bytes, layout::CALLS_AT, layout::CALL_SLOTS, state::number(&self.bytes, layout::CALL_HEIGHT_AT))
            }

            /// The memory.
            pub fn memory(&self) -> &[u8] {
                &self.bytes[layout::MEMORY_AT..][..layout::MEMORY_SIZE]
            }

            /// The flags: bits 0 to 7 are E, L, LE, G, GE, NE, Z and NZ.
            pub fn flags(&self) -> u8 {
                self.bytes[layout::FLAGS_AT]
            }

            /// The index of the next instruction; after a trap, of the one that trapped.
            pub fn pointer(&self) -> u64 {
                state::number(&self.bytes, layout::POINTER_AT)
            }

            /// Whether the program halted.
            pub fn halted(&self) -> bool {
                self.bytes[layout::HALTED_AT] != 0
            }

            /// The machine as the calls see it, for a host that stores it. The places are named in [`layout`](crate::layout).
            pub fn as_bytes(&self) -> &[u8; MACHINE_SIZE] {
                &self.bytes
            }
        }

        impl core::fmt::Debug for $machine {
            fn fmt(&self, f: &mut core::fmt::Formatter<'_>) -> core::fmt::Result {
                let (height, calls) = (self.cells().len(), self.addresses().len());
                let mut shown = f.debug_struct("Machine");
                shown.field("pointer", &self.pointer()).field("height", &height).field("calls", &calls).field("halted", &self.halted());
                shown.finish_non_exhaustive()
            }
        }
    };
}

pub(crate) use state;
