//! Calls on a painted stack: how far down a function writes.
//!
//! The stack of a call is the bytes from the stack pointer just before the call
//! instruction down to the lowest byte written: the return address is one of
//! them, arguments passed on the stack are not.

use std::arch::global_asm;

/// The bytes of the painted stack: many times what the deepest run needs.
const BYTES: usize = 1 << 20;
/// Bytes above the arguments, which nothing may change.
const GUARD: usize = 256;
/// Two paints, as a byte that is written may be that of one paint.
const PAINTS: [u8; 2] = [0xA5, 0x5A];

/// A call by the System V convention, its arguments whole numbers or pointers.
/// `datasheet_call_on_stack` knows this layout.
#[repr(C)]
struct Call {
    target: *const (),
    registers: [usize; 6],
    pushed: *const usize,
    pushed_count: usize,
    returned: [usize; 2],
}

global_asm!(
    ".globl datasheet_call_on_stack",
    "datasheet_call_on_stack:",
    "push rbp",
    "push rbx",
    "mov rbp, rsp",
    "mov rbx, rdi",
    "mov rsp, rsi",
    "mov rax, [rbx + 56]",
    "mov rcx, [rbx + 64]",
    "2:",
    "test rcx, rcx",
    "jz 3f",
    "push qword ptr [rax + 8 * rcx - 8]",
    "dec rcx",
    "jmp 2b",
    "3:",
    "mov rdi, [rbx + 8]",
    "mov rsi, [rbx + 16]",
    "mov rdx, [rbx + 24]",
    "mov rcx, [rbx + 32]",
    "mov r8, [rbx + 40]",
    "mov r9, [rbx + 48]",
    "call qword ptr [rbx]",
    "mov [rbx + 72], rax",
    "mov [rbx + 80], rdx",
    "mov rsp, rbp",
    "pop rbx",
    "pop rbp",
    "ret",
);

extern "C" {
    /// Makes the call with the stack pointer at `top` before its arguments.
    fn datasheet_call_on_stack(call: *mut Call, top: *mut u8);
}

/// What a call returned in its two registers, the stack that it took, and the
/// bytes of the arguments pushed for it.
pub struct Returned {
    pub registers: [usize; 2],
    pub stack: usize,
    pub pushed: usize,
}

/// A stack of its own for calls that are measured.
pub struct Stack {
    bytes: Vec<u128>,
}

impl Stack {
    pub fn new() -> Stack {
        Stack {
            bytes: vec![0; BYTES / size_of::<u128>()],
        }
    }

    /// Calls a function, once for each paint, and gives the greater stack.
    ///
    /// # Safety
    /// The target is a function of the System V convention that takes these
    /// arguments, and what they point to may be used twice in turn.
    pub unsafe fn measure(&mut self, target: *const (), arguments: &[usize]) -> Returned {
        let [first, second] = PAINTS.map(|paint| {
            // SAFETY: as the caller promises.
            unsafe { self.call(paint, target, arguments) }
        });
        let stack = first.stack.max(second.stack);
        Returned { stack, ..second }
    }

    /// One call on a stack painted anew.
    unsafe fn call(&mut self, paint: u8, target: *const (), arguments: &[usize]) -> Returned {
        let split = arguments.len().min(6);
        let (passed, pushed) = arguments.split_at(split);
        let mut registers = [0; 6];
        registers[..split].copy_from_slice(passed);
        let mut call = Call {
            target,
            registers,
            pushed: pushed.as_ptr(),
            pushed_count: pushed.len(),
            returned: [0; 2],
        };
        self.bytes.fill(u128::from_ne_bytes([paint; 16]));
        let (top, before) = places(pushed.len());
        let base = self.bytes.as_mut_ptr().cast::<u8>();
        // SAFETY: the target fits its arguments, as the caller promises, and
        // the place is 16-byte aligned where the call is made.
        unsafe { datasheet_call_on_stack(&mut call, base.add(top)) };
        // SAFETY: the vector has so many bytes.
        let painted = unsafe { std::slice::from_raw_parts(base, BYTES) };
        Returned {
            registers: call.returned,
            stack: before - lowest_written(painted, paint, top),
            pushed: top - before,
        }
    }
}

impl Default for Stack {
    fn default() -> Stack {
        Stack::new()
    }
}

/// Where the stack pointer stands before so many arguments are pushed and after
/// it, counted from the lowest byte; the latter is a multiple of 16.
fn places(pushed: usize) -> (usize, usize) {
    let before = BYTES - GUARD - (8 * pushed).next_multiple_of(16);
    (before + 8 * pushed, before)
}

/// The lowest byte that no longer has the paint.
fn lowest_written(bytes: &[u8], paint: u8, top: usize) -> usize {
    let painted = |byte: &u8| *byte == paint;
    assert!(bytes[top..].iter().all(painted), "written above its caller");
    let lowest = bytes.iter().position(|byte| *byte != paint);
    let lowest = lowest.expect("the return address is written");
    assert!(lowest > 0, "the painted stack is too small");
    lowest
}
