// The original's traps and document 01's numbers.
use mm::Trap;

/// Document 01's number of a trap of the original, or that it has none.
pub fn number(trap: &Trap) -> Result<u64, String> {
    Ok(match trap {
        Trap::UndefinedSymbol(_) => 2,
        Trap::InvalidOperand(_) => 3,
        Trap::NoEntryPointFound(_) => 7,
        Trap::StackUnderflow(_) => 20,
        Trap::CallStackUnderflow(_) => 22,
        Trap::DivisionByZero(_) => 24,
        Trap::IllegalMemoryAccess(..) => 25,
        Trap::InvalidLabel(..) => 26,
        Trap::InvalidFunction(..) => 27,
        Trap::InvalidType(..) => 28,
        Trap::FailedConversion(..) => 29,
        Trap::OperationWithDifferentTypes(..) => 30,
        other => return Err(format!("the Rust has a trap without a number: {other:?}")),
    })
}
