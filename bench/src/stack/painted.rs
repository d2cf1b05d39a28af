//! A call on a stack of its own that is painted before, so that what it touched is seen.

use std::arch::asm;

/// A function of the C face, whatever its arguments are.
pub type Face = unsafe extern "C" fn();

/// More words than any call takes.
const WORDS: usize = 1 << 15;

const PAINT: u64 = 0x5CA1_AB1E_5CA1_AB1E;

/// So many arguments are handed over in registers.
const IN_REGISTERS: usize = 6;

pub struct Outcome {
    pub answer: u64,
    /// How many bytes below the caller's frame were touched, the return address among them.
    pub depth: usize,
}

/// Calls a function with arguments of one word each.
///
/// # Safety
/// The arguments are what the header asks of a caller of that function.
pub unsafe fn run(function: Face, arguments: &[u64]) -> Outcome {
    let mut stack = vec![PAINT; WORDS];
    let (registers, rest) = arguments.split_at(arguments.len().min(IN_REGISTERS));
    let mut six = [0; IN_REGISTERS];
    six[..registers.len()].copy_from_slice(registers);
    let top = start(&stack, rest.len());
    stack[top..top + rest.len()].copy_from_slice(rest);
    let answer: u64;
    // SAFETY: the stack is this function's own, aligned as a call wants it, and large enough; the registers that hold both stack pointers and
    // the function are kept by every function of C.
    asm!(
        "mov r12, rsp",
        "mov rsp, r13",
        "call r14",
        "mov rsp, r12",
        in("r13") stack.as_mut_ptr().add(top),
        in("r14") function,
        out("r12") _,
        inout("rdi") six[0] => _,
        inout("rsi") six[1] => _,
        inout("rdx") six[2] => _,
        inout("rcx") six[3] => _,
        inout("r8") six[4] => _,
        inout("r9") six[5] => _,
        lateout("rax") answer,
        clobber_abi("C"),
    );
    let touched = stack[..top].iter().position(|&word| word != PAINT);
    Outcome {
        answer,
        depth: (top - touched.unwrap_or(top)) * size_of::<u64>(),
    }
}

/// Where the arguments begin that are handed over on the stack: the last words of it, at a multiple of 16 bytes.
fn start(stack: &[u64], arguments: usize) -> usize {
    let start = stack.len() - arguments - 1;
    start - (stack.as_ptr().wrapping_add(start) as usize % 16) / size_of::<u64>()
}
