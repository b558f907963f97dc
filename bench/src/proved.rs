//! The call to the proved machine, in the static library that `rt lib` writes for the crate `bench_run`.

#[link(name = "bench_run", kind = "static")]
unsafe extern "C" {
    // A slice is passed as its first word's address and then its length.
    fn bench_run(
        image: *const u16,
        image_words: usize,
        memory: *mut u16,
        memory_words: usize,
        input: *const u16,
        input_words: usize,
        output: *mut u16,
        output_words: usize,
        runs: u32,
    ) -> u32;
}

/// Loads the image and runs it over a tape, so many times 1,000,000 cycles; answers the cycles done.
pub fn run(image: &[u16], memory: &mut [u16], input: &[u16], output: &mut [u16], runs: u32) -> u32 {
    // Each address and length is of a slice that is lent for the call, the changed ones alone.
    unsafe {
        bench_run(
            image.as_ptr(),
            image.len(),
            memory.as_mut_ptr(),
            memory.len(),
            input.as_ptr(),
            input.len(),
            output.as_mut_ptr(),
            output.len(),
            runs,
        )
    }
}
