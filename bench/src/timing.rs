//! The port's calls for timing, `bench/massey_bench.h`: all but one load an image
//! on a new machine, put one call to work and answer a number that shows what was
//! done. Nothing checks these declarations against the port's source, so they
//! are kept to this one place.

mod c {
    extern "C" {
        pub fn massey_run(
            image: *const u8,
            image_len: usize,
            ticks: u64,
            budget: u64,
            breakpoints: *const u8,
            breakpoints_len: usize,
        ) -> u64;
        pub fn massey_direct_run(image: *const u8, image_len: usize, budget: u64) -> u64;
        pub fn massey_steps(image: *const u8, image_len: usize, n: u64) -> u64;
        pub fn massey_direct_steps(image: *const u8, image_len: usize, n: u64) -> u64;
        pub fn massey_ticks(image: *const u8, image_len: usize, n: u64) -> u64;
        pub fn massey_pushes(
            image: *const u8,
            image_len: usize,
            store: *mut u8,
            store_len: usize,
            count: u64,
            n: u64,
        ) -> u64;
        pub fn massey_undos(
            image: *const u8,
            image_len: usize,
            store: *const u8,
            store_len: usize,
            count: u64,
            n: u64,
        ) -> u64;
        pub fn massey_format_word(word: u16, out: *mut u8, out_len: usize) -> u64;
    }
}

/// How many digits the text of a word has. They are in `out`, where that has room
/// for a text's field.
pub fn format_word(word: u16, out: &mut [u8]) -> u64 {
    // SAFETY: pointer and length are those of a slice lent for the call.
    unsafe { c::massey_format_word(word, out.as_mut_ptr(), out.len()) }
}

/// The micro operations of a run with that budget and these breakpoints, after
/// `ticks` micro operations one at a time, on a new machine with the image loaded.
pub fn run(image: &[u8], ticks: u64, budget: u64, breakpoints: &[u8]) -> u64 {
    // SAFETY: pointers and lengths are those of slices lent for the call.
    unsafe {
        c::massey_run(
            image.as_ptr(),
            image.len(),
            ticks,
            budget,
            breakpoints.as_ptr(),
            breakpoints.len(),
        )
    }
}

/// The same by the direct engine, from the start and without breakpoints.
pub fn direct_run(image: &[u8], budget: u64) -> u64 {
    // SAFETY: as above.
    unsafe { c::massey_direct_run(image.as_ptr(), image.len(), budget) }
}

/// The same of `n` instructions, one at a time.
pub fn steps(image: &[u8], n: u64) -> u64 {
    // SAFETY: as above.
    unsafe { c::massey_steps(image.as_ptr(), image.len(), n) }
}

/// The same without ticks.
pub fn direct_steps(image: &[u8], n: u64) -> u64 {
    // SAFETY: as above.
    unsafe { c::massey_direct_steps(image.as_ptr(), image.len(), n) }
}

/// The same of `n` ticks, one at a time.
pub fn ticks(image: &[u8], n: u64) -> u64 {
    // SAFETY: as above.
    unsafe { c::massey_ticks(image.as_ptr(), image.len(), n) }
}

/// How many records there are after `n` pushes to a store that has `count`.
pub fn pushes(image: &[u8], store: &mut [u8], count: u64, n: u64) -> u64 {
    let (at, length) = (store.as_mut_ptr(), store.len());
    // SAFETY: as above, and the two slices cannot overlap.
    unsafe { c::massey_pushes(image.as_ptr(), image.len(), at, length, count, n) }
}

/// How many records are left of `count` after `n` undoes.
pub fn undos(image: &[u8], store: &[u8], count: u64, n: u64) -> u64 {
    let (at, length) = (store.as_ptr(), store.len());
    // SAFETY: as above.
    unsafe { c::massey_undos(image.as_ptr(), image.len(), at, length, count, n) }
}
