//! The proved library: a slice passes as a pointer and a length.
extern "C" {
    fn measure_script(text: *const u8, text_len: usize, replies: *mut u8, replies_len: usize) -> usize;
}

/// The replies to a script, written to the start of `replies`; how many bytes there are.
pub fn run(text: &[u8], replies: &mut [u8]) -> usize {
    // SAFETY: both pointers come with the lengths of their slices; the library is proved safe for any of them.
    unsafe { measure_script(text.as_ptr(), text.len(), replies.as_mut_ptr(), replies.len()) }
}
