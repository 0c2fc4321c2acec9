// A call on a stack of its own that was painted beforehand: what isn't paint afterwards was written.

std::arch::global_asm!(
    // painted_call(function, arguments, how many of them are on the stack, top): the stack pointer at the call
    // The first six arguments are in registers. The two registers of an answer replace the first two arguments.
    ".globl painted_call",
    "painted_call:",
    "push rbp",
    "push rbx",
    "push r12",
    "mov rbp, rsp",
    "mov rsp, rcx",
    "mov rax, rdi",
    "mov rbx, rsi",
    // the stack pointer is a multiple of 16 at a call
    "test rdx, 1",
    "jz 2f",
    "sub rsp, 8",
    "2:",
    "test rdx, rdx",
    "jz 3f",
    "push qword ptr [rbx + 8 * rdx + 40]",
    "dec rdx",
    "jmp 2b",
    "3:",
    "mov r12, rsp",
    "mov rdi, [rbx]",
    "mov rsi, [rbx + 8]",
    "mov rdx, [rbx + 16]",
    "mov rcx, [rbx + 24]",
    "mov r8, [rbx + 32]",
    "mov r9, [rbx + 40]",
    "call rax",
    "mov [rbx], rax",
    "mov [rbx + 8], rdx",
    "mov rax, r12",
    "mov rsp, rbp",
    "pop r12",
    "pop rbx",
    "pop rbp",
    "ret",
);

extern "C" {
    fn painted_call(function: unsafe extern "C" fn(), arguments: *mut u64, on_stack: usize, top: *mut u64) -> *const u64;
}

// 512 KiB, and a number that no call writes
const WORDS: usize = 1 << 16;
const PAINT: u64 = 0x5A5A_5A5A_5A5A_5A5A;

pub struct Stack(Vec<u64>);

impl Stack {
    pub fn new() -> Stack {
        Stack(vec![PAINT; WORDS])
    }

    /// The first two words of an answer in registers, and how many bytes below the stack pointer at the call were written.
    ///
    /// # Safety
    /// The function takes these arguments under C's calling convention, and their addresses are valid.
    pub unsafe fn call(&mut self, function: unsafe extern "C" fn(), mut arguments: Vec<u64>) -> ([u64; 2], usize) {
        let on_stack = arguments.len().checked_sub(6).expect("six arguments at least");
        let at = painted_call(function, arguments.as_mut_ptr(), on_stack, self.0.as_mut_ptr_range().end);
        let lowest = self.0.iter().position(|word| *word != PAINT).expect("the return address at least");
        assert!(lowest > 0, "the stack is too short to be measured");
        let bytes = at as usize - (&raw const self.0[lowest]) as usize;
        self.0[lowest..].fill(PAINT);
        ([arguments[0], arguments[1]], bytes)
    }
}
