//! The AFL++ persistent loop: inputs come in shared memory, many per process.
use std::hint::black_box;

/// The number of inputs per process.
const INPUTS: u32 = 10_000;

/// The signature by which `afl-fuzz` recognizes persistent mode.
#[used]
static PERSISTENT: [u8; 22] = *b"##SIG_AFL_PERSISTENT##";

/// The signature by which AFL++'s runtime recognizes that inputs are passed in shared memory.
#[no_mangle]
static mut __afl_sharedmem_fuzzing: i32 = 1;

unsafe extern "C" {
    fn __afl_persistent_loop(count: u32) -> i32;
    fn __afl_manual_init();
    static mut __afl_fuzz_ptr: *const u8;
    static mut __afl_fuzz_len: *const u32;
}

/// Passes each input to `one`.
pub fn each_input(one: impl Fn(&[u8])) {
    black_box(&PERSISTENT);
    // SAFETY: after the first call both pointers point to AFL++'s memory, and the length is that of the input.
    unsafe {
        __afl_manual_init();
        while __afl_persistent_loop(INPUTS) != 0 {
            one(std::slice::from_raw_parts(
                __afl_fuzz_ptr,
                *__afl_fuzz_len as usize,
            ));
        }
    }
}
