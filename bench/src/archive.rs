//! The proved calls, made as C makes them (include/spokeshaver.h). The one file with unsafe code.
#![allow(unsafe_code)]

unsafe extern "C" {
    fn spokeshaver_check(
        dictionary: *const u8,
        dictionary_len: usize,
        kernel: *const u8,
        kernel_len: usize,
    ) -> u64;

    fn spokeshaver_pack(
        dictionary: *const u8,
        dictionary_len: usize,
        kernel: *const u8,
        kernel_len: usize,
        out: *mut u8,
        out_len: usize,
    ) -> u64;

    fn spokeshaver_shorten(
        dictionary: *const u8,
        dictionary_len: usize,
        word: *const u8,
        word_len: usize,
        out: *mut u8,
        out_len: usize,
    ) -> u64;

    fn spokeshaver_run(
        dictionary: *const u8,
        dictionary_len: usize,
        kernel: *const u8,
        kernel_len: usize,
        budget: u64,
        registers: *mut u8,
        registers_len: usize,
        state: *mut u8,
        state_len: usize,
    ) -> u64;
}

/// Judges the kernel.
pub fn check(dictionary: &[u8], kernel: &[u8]) -> u64 {
    // SAFETY: as below; nothing is lent for writing.
    unsafe {
        spokeshaver_check(dictionary.as_ptr(), dictionary.len(), kernel.as_ptr(), kernel.len())
    }
}

/// Judges a kernel of long words and packs it.
pub fn pack(dictionary: &[u8], kernel: &[u8], out: &mut [u8]) -> u64 {
    // SAFETY: as below.
    unsafe {
        spokeshaver_pack(
            dictionary.as_ptr(),
            dictionary.len(),
            kernel.as_ptr(),
            kernel.len(),
            out.as_mut_ptr(),
            out.len(),
        )
    }
}

/// Shortens one long word.
pub fn shorten(dictionary: &[u8], word: &[u8], out: &mut [u8]) -> u64 {
    // SAFETY: as below.
    unsafe {
        spokeshaver_shorten(
            dictionary.as_ptr(),
            dictionary.len(),
            word.as_ptr(),
            word.len(),
            out.as_mut_ptr(),
            out.len(),
        )
    }
}

/// Judges the kernel and the state once, then makes the budget's steps unless the end comes
/// first.
pub fn run(
    dictionary: &[u8],
    kernel: &[u8],
    budget: u64,
    registers: &mut [u8],
    state: &mut [u8],
) -> u64 {
    // SAFETY: every pointer comes with its own slice's length, and what is lent for writing
    // overlaps nothing, as slices have it.
    unsafe {
        spokeshaver_run(
            dictionary.as_ptr(),
            dictionary.len(),
            kernel.as_ptr(),
            kernel.len(),
            budget,
            registers.as_mut_ptr(),
            registers.len(),
            state.as_mut_ptr(),
            state.len(),
        )
    }
}
