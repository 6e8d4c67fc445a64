//! How much stack a call takes: it runs on a stack of its own, filled with a pattern, and what is no longer the pattern was taken. x86-64 only, as the
//! library.

use std::arch::asm;

const PATTERN: u64 = 0xa5c3_96e1_5a3c_691e;
/// Words of 8 bytes.
const STACK: usize = 1 << 17;

/// The bytes of stack that a call takes, to the next 8, the return address with them.
pub fn taken<F: FnMut()>(mut call: F) -> usize {
    let mut stack = vec![PATTERN; STACK];
    // The stack pointer must be a multiple of 16 before a call.
    let end = stack.as_mut_ptr() as usize + 8 * STACK;
    let top = end & !15;
    // SAFETY: the stack is as long as the call, which doesn't unwind out of `enter`, nor return to another.
    unsafe {
        asm!(
            "xchg rsp, r12",
            "call {enter}",
            "mov rsp, r12",
            enter = in(reg) enter::<F> as extern "C" fn(*mut F),
            inout("r12") top => _,
            in("rdi") &mut call as *mut F,
            clobber_abi("C"),
        );
    }
    let untouched = stack.iter().take_while(|word| **word == PATTERN).count();
    assert!(untouched > 0, "the stack is too small");
    8 * (STACK - untouched) - (end - top)
}

extern "C" fn enter<F: FnMut()>(call: *mut F) {
    // SAFETY: it points to the closure that `taken` has.
    unsafe { (*call)() }
}

#[cfg(test)]
mod tests {
    use super::*;
    use std::hint::black_box;

    #[inline(never)]
    fn fill<const N: usize>() -> u8 {
        let mut bytes = [1u8; N];
        black_box(&mut bytes);
        bytes[N / 2]
    }

    #[test]
    fn arrays_are_seen() {
        let little = taken(|| assert_eq!(fill::<16>(), 1));
        let much = taken(|| assert_eq!(fill::<100_000>(), 1));
        assert!(little < 1000, "{little}");
        assert!(
            (99_900..101_000).contains(&(much - little)),
            "{little} {much}"
        );
    }
}
