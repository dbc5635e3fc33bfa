//! A stack for single calls, which tells how many bytes of it a call used.

use std::arch::asm;

/// The words of the stack, far more than a call uses.
const WORDS: usize = 1 << 17;

/// What a word has that no call wrote.
const PAINT: u64 = 0x9e37_79b9_7f4a_7c15;

pub struct OwnStack {
    words: Vec<u64>,
}

/// What a call on its own stack returned, and the bytes of stack that it used, its return address among them.
pub struct Used {
    pub number: u64,
    pub bytes: u64,
}

impl OwnStack {
    pub fn painted() -> OwnStack {
        OwnStack {
            words: vec![PAINT; WORDS],
        }
    }

    /// Calls a function of the interface; arguments that it does not take may be anything.
    ///
    /// # Safety
    /// The function takes at most nine arguments, and these are what it asks for.
    pub unsafe fn call(&mut self, function: *const (), arguments: &[u64; 9]) -> Used {
        let base = self.words.as_mut_ptr();
        // At the call, with three arguments above it, the stack pointer is a multiple of 16.
        let mut at_call = WORDS - 8;
        at_call += base.add(at_call) as usize % 16 / 8;
        let number: u64;
        asm!(
            "mov r12, rsp",
            "mov rsp, {top}",
            "push qword ptr [{rest} + 16]",
            "push qword ptr [{rest} + 8]",
            "push qword ptr [{rest}]",
            "call {function}",
            "mov rsp, r12",
            top = in(reg) base.add(at_call + 3),
            rest = in(reg) arguments[6..].as_ptr(),
            function = in(reg) function,
            in("rdi") arguments[0],
            in("rsi") arguments[1],
            in("rdx") arguments[2],
            in("rcx") arguments[3],
            in("r8") arguments[4],
            in("r9") arguments[5],
            out("r12") _,
            lateout("rax") number,
            clobber_abi("C"),
        );
        let deepest = self.words.iter().position(|&word| word != PAINT);
        let deepest = deepest.expect("the call's arguments are on the stack");
        assert!(deepest > 0, "the call used the whole stack");
        self.words[deepest..].fill(PAINT);
        Used {
            number,
            bytes: 8 * at_call.saturating_sub(deepest) as u64,
        }
    }
}
