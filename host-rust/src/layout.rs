//! Sizes and places in what is lent to the calls, in bytes, as docs/HOST.md lays them out: each follows from the limits at the top.

/// The longest image that a load accepts.
pub const IMAGE_MAX: usize = 16_384;

/// The most instructions of a program, an appended HALT counted.
pub const INST_MAX: usize = 4_096;

/// The most label definitions of a program.
pub const LABEL_MAX: usize = 512;

/// The cells that a data stack has room for.
pub const STACK_SLOTS: usize = 1_024;

/// The return addresses that a call stack has room for.
pub const CALL_SLOTS: usize = 1_024;

/// The bytes of a machine's memory.
pub const MEMORY_SIZE: usize = 1_024;

/// A number: an unsigned integer of 64 bits, lowest byte first. Cells and addresses are numbers.
pub const NUMBER_SIZE: usize = 8;

/// A table's record: four numbers.
pub const RECORD_SIZE: usize = 4 * NUMBER_SIZE;

/// The shortest instruction table that a load accepts.
pub const INSTS_SIZE: usize = INST_MAX * RECORD_SIZE;

/// The shortest label table that a load accepts: a record for each definition, and the head.
pub const LABELS_SIZE: usize = (LABEL_MAX + 1) * RECORD_SIZE;

/// The longest program as an encoding writes it: its image, and the HALT that the load may have appended.
pub const ENCODED_MAX: usize = IMAGE_MAX + 1;

/// Where a machine's data stack starts.
pub const STACK_AT: usize = 0;

/// Where a machine's call stack starts.
pub const CALLS_AT: usize = STACK_AT + STACK_SLOTS * NUMBER_SIZE;

/// Where a machine's memory starts.
pub const MEMORY_AT: usize = CALLS_AT + CALL_SLOTS * NUMBER_SIZE;

/// Where the number of cells on the data stack is.
pub const HEIGHT_AT: usize = MEMORY_AT + MEMORY_SIZE;

/// Where the number of open calls is.
pub const CALL_HEIGHT_AT: usize = HEIGHT_AT + NUMBER_SIZE;

/// Where the pointer is, the index of the next instruction.
pub const POINTER_AT: usize = CALL_HEIGHT_AT + NUMBER_SIZE;

/// Where the flags are, one byte.
pub const FLAGS_AT: usize = POINTER_AT + NUMBER_SIZE;

/// Where halted is, one byte, 0 or 1.
pub const HALTED_AT: usize = FLAGS_AT + 1;

/// A machine.
pub const MACHINE_SIZE: usize = HALTED_AT + 1;
