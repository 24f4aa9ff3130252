//! How much stack a call takes: it runs on a painted stack of its own, and the paint that is left is measured.

use std::arch::asm;

const SIZE: usize = 256 * 1024;
const PAINT: u8 = 0xa5;

extern "C" fn call(f: *mut &mut dyn FnMut()) {
    // SAFETY: the pointer is to the closure of `used_by`, which waits for this call.
    unsafe { (*f)() }
}

/// The bytes of stack that the closure took, the call itself included.
pub fn used_by(mut f: impl FnMut()) -> usize {
    let mut space = vec![PAINT; SIZE];
    let top = (space.as_mut_ptr() as usize + SIZE) & !63;
    let call: extern "C" fn(*mut &mut dyn FnMut()) = call;
    let mut object: &mut dyn FnMut() = &mut f;
    // SAFETY: `top` is the end of a space of our own, aligned as a stack has to be; the stack before
    // is kept in a register that a call leaves alone, and is taken again behind the call.
    unsafe {
        asm!(
            "mov r12, rsp",
            "mov rsp, {top}",
            "call {call}",
            "mov rsp, r12",
            top = in(reg) top,
            call = in(reg) call,
            in("rdi") &mut object as *mut &mut dyn FnMut(),
            out("r12") _,
            clobber_abi("C"),
        );
    }
    let untouched = space.iter().take_while(|byte| **byte == PAINT).count();
    top - space.as_ptr() as usize - untouched
}
