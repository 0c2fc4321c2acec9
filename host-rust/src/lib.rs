//! mm's load, run and encode, proved in Rattle, from safe Rust. It is `no_std` and has no dependency but the archive.
//!
//! There are two layers over the same calls:
//!
//! - **The owning layer**, [`Program`] and [`Machine`] on this page, for a host with an allocator (feature `alloc`, on by default). Begin here.
//! - **The lent layer**, [`lent`], for a host without an allocator or with its own places for tables and machines.
//!
//! Both have the same [`Refusal`], [`Ending`], [`Trap`] and [`Ran`]. A program is loaded once and then run by as many machines as wanted; a run goes on where the
//! machine's last one stopped:
//!
#![cfg_attr(feature = "alloc", doc = "```")]
#![cfg_attr(not(feature = "alloc"), doc = "```ignore")]
//! use mm_host::{Ending, Program};
//!
//! // LABEL _start, PUSH 2, PUSH 3, IMUL, dump to stream 1; HALT is appended
//! let image = [
//!     0x15, 6, 0, 0, 0, 0, 0, 0, 0, b'_', b's', b't', b'a', b'r', b't',
//!     0x01, 2, 0, 0, 0, 0, 0, 0xF2, 0x7F, 0x01, 3, 0, 0, 0, 0, 0, 0xF2, 0x7F, 0x07, 0x1B, 1,
//! ];
//! let program = Program::load(image)?;
//! let mut machine = program.machine();
//! let mut dumps = [0; 8];
//! let ran = machine.run(&program, 3, &mut dumps);
//! assert_eq!((ran.ending, ran.steps), (Ending::Limit, 3));
//! let ran = machine.run(&program, 10_000, &mut dumps);
//! assert_eq!((ran.ending, ran.steps), (Ending::Halted, 3));
//! assert_eq!(ran.dumped, [0x7FF2_0000_0000_0006]);
//! # Ok::<(), mm_host::Refusal>(())
//! ```

#![no_std]
#![deny(missing_docs, unsafe_code)]

#[cfg(not(all(target_arch = "x86_64", target_os = "linux")))]
compile_error!("mm_host is for x86-64 Linux: the proved archive that it links, libmm_host.a, is x86-64 code in Linux's format (ELF)");

#[cfg(feature = "alloc")]
extern crate alloc;

mod ending;
pub mod layout;
pub mod lent;
mod numbered;
#[cfg(feature = "alloc")]
mod owned;
mod refusal;
mod state;
#[allow(unsafe_code)]
mod sys;
mod words;

pub use ending::{Ending, Ran, Trap};
pub use numbered::UnknownNumber;
#[cfg(feature = "alloc")]
pub use owned::{Machine, Program};
pub use refusal::{NotAMachine, Refusal};
