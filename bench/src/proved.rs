//! The proved reader, from the static library of the crate `unit_abi_c`.

extern "C" {
    /// Takes a slice as its pointer and its length.
    fn berth_unit_read(bytes: *const u8, length: usize) -> u32;
}

/// The number of the proved reader's refusal, and 0 where the bytes are read.
pub fn read(bytes: &[u8]) -> u32 {
    // SAFETY: the pointer and the length are those of a slice, which the
    // function reads while it is lent, and does not keep.
    unsafe { berth_unit_read(bytes.as_ptr(), bytes.len()) }
}
