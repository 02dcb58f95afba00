//! The port's C interface, `include/massey.h`. Nothing checks these declarations
//! against the port's source, so they are kept to this one place. The calls for
//! timing are in an archive of their own, which `bench/` links.

mod c {
    extern "C" {
        pub fn massey_disassemble(word: u16, out: *mut u8, out_len: usize) -> i64;
        pub fn massey_listing(
            image: *const u8,
            image_len: usize,
            out: *mut u8,
            out_len: usize,
        ) -> i64;
        pub fn massey_assemble(
            text: *const u8,
            text_len: usize,
            out: *mut u8,
            out_len: usize,
        ) -> i64;
        pub fn massey_report(
            input: *const u8,
            input_len: usize,
            out: *mut u8,
            out_len: usize,
        ) -> i64;
    }
}

/// The text's length, or minus the refusal's number.
pub fn disassemble(word: u16, out: &mut [u8]) -> i64 {
    // SAFETY: pointer and length are those of a slice lent for the call.
    unsafe { c::massey_disassemble(word, out.as_mut_ptr(), out.len()) }
}

/// The listing's length, or minus the refusal's number. The image's words are
/// high byte first.
pub fn listing(image: &[u8], out: &mut [u8]) -> i64 {
    // SAFETY: as above, and the two slices cannot overlap.
    unsafe { c::massey_listing(image.as_ptr(), image.len(), out.as_mut_ptr(), out.len()) }
}

/// The length in bytes of the image that a text gives, or minus the refusal's
/// number. The words are high byte first.
pub fn assemble(text: &[u8], out: &mut [u8]) -> i64 {
    // SAFETY: as above.
    unsafe { c::massey_assemble(text.as_ptr(), text.len(), out.as_mut_ptr(), out.len()) }
}

/// The report's length, or minus the refusal's number. The input is what the
/// report program reads.
pub fn report(input: &[u8], out: &mut [u8]) -> i64 {
    // SAFETY: as above.
    unsafe { c::massey_report(input.as_ptr(), input.len(), out.as_mut_ptr(), out.len()) }
}
