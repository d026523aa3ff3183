//! How deep a call writes its stack: it runs on an area of its own, painted before and searched
//! after.

use std::arch::asm;
use std::ffi::c_void;

const PAINT: u64 = 0x5157_a11e_d0c5_7ac4;
/// Words of the area: far more than any call needs.
const WORDS: usize = 32 * 1024;

/// The area; a stack begins on a multiple of 16 bytes.
#[repr(align(16))]
struct Area([u64; WORDS]);

/// Bytes of stack that the job writes.
pub fn depth<F: FnMut()>(job: &mut F) -> usize {
    let mut area = Box::new(Area([PAINT; WORDS]));
    let top = area.0.as_mut_ptr_range().end;
    // SAFETY: the area is writable up to its end, aligned, used for nothing else, and outlives the
    // call; `job` is an F, as `run_job` takes it.
    unsafe { run_on(top, run_job::<F>, (job as *mut F).cast()) };
    let untouched = area.0.iter().take_while(|&&word| word == PAINT).count();
    assert!(untouched > 0, "the call needs more stack than was prepared");
    (WORDS - untouched) * size_of::<u64>()
}

extern "C" fn run_job<F: FnMut()>(job: *mut c_void) {
    // SAFETY: `depth` passes its own job, which it has borrowed for the call.
    let job = unsafe { &mut *job.cast::<F>() };
    job();
}

/// Calls the function on the stack that ends at `top`.
#[inline(never)]
unsafe fn run_on(top: *mut u64, function: extern "C" fn(*mut c_void), job: *mut c_void) {
    // r12 is the callee's to keep: it holds the stack to come back to.
    asm!(
        "xchg rsp, r12",
        "call {function}",
        "mov rsp, r12",
        function = in(reg) function,
        inout("r12") top => _,
        in("rdi") job,
        clobber_abi("C"),
    );
}
