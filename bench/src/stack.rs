//! The stack that a call uses: it runs on a painted stack of its own, and the bytes down to the deepest one that it
//! changed are counted. On another processor than x86-64 it is not measured, and 0 stands for it.
use std::hint::black_box;

const RETURN_ADDRESS: usize = 8;
const SIZE: usize = 1 << 20;

/// The stack below a call, with the return address: what `call` uses with f beyond what it uses with one that does nothing.
pub fn of_call<F>(f: F, nothing: F, mut call: impl FnMut(&F)) -> usize {
    if cfg!(not(target_arch = "x86_64")) {
        return 0;
    }
    let mut with = |f: &F| used(|| call(black_box(f)));
    with(&f) + RETURN_ADDRESS - with(&nothing)
}

/// Bytes of stack that f uses, the frame of f included. Painted twice: a byte set to the one paint shows under the other.
fn used(mut f: impl FnMut()) -> usize {
    painted(0xa5, &mut f).max(painted(0x5a, &mut f))
}

fn painted<F: FnMut()>(paint: u8, f: &mut F) -> usize {
    let mut stack = vec![paint; SIZE];
    let top = stack.as_mut_ptr().wrapping_add(SIZE).map_addr(|a| a & !15);
    run_on(top, f);
    let untouched = stack.iter().take_while(|byte| **byte == paint).count();
    top as usize - (stack.as_ptr() as usize + untouched)
}

/// Calls f with its stack below the top.
#[cfg(target_arch = "x86_64")]
fn run_on<F: FnMut()>(top: *mut u8, f: &mut F) {
    // SAFETY: the top of the stack is aligned as a call asks, and what lies below it is ours and far larger than a call
    // needs. r12 keeps the old stack pointer, since a C function saves it. A panic in f ends the process at `call`.
    unsafe {
        std::arch::asm!(
            "xchg rsp, r12",
            "call {call}",
            "mov rsp, r12",
            call = in(reg) call::<F> as extern "C" fn(*mut F),
            inout("r12") top => _,
            in("rdi") f as *mut F,
            clobber_abi("C"),
        );
    }
}

#[cfg(not(target_arch = "x86_64"))]
fn run_on<F: FnMut()>(_top: *mut u8, _f: &mut F) {}

#[cfg(target_arch = "x86_64")]
extern "C" fn call<F: FnMut()>(f: *mut F) {
    // SAFETY: `run_on` passes its own exclusive reference.
    unsafe { (*f)() }
}
