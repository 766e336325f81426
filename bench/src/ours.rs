//! The proved SHA-256 and the proved cutting, by the C interfaces of their static
//! libraries.

extern "C" {
    /// Writes the digest to `out` and answers true, if `out_length` is 32;
    /// otherwise answers false and writes nothing.
    fn zeltuva_sha256(message: *const u8, length: usize, out: *mut u8, out_length: usize) -> bool;

    /// The length of the first piece of the bytes from here to the file's end, 0
    /// where there are none.
    fn zeltuva_piece_length(bytes: *const u8, length: usize) -> usize;
}

/// Writes the digest of `message` to `out`, unless that has other than 32 bytes.
pub fn sha256_into(message: &[u8], out: &mut [u8]) -> bool {
    // SAFETY: each pointer and its length are those of a slice, which lives
    // through the call; `out` is borrowed for this call alone, so that the two
    // do not overlap.
    unsafe { zeltuva_sha256(message.as_ptr(), message.len(), out.as_mut_ptr(), out.len()) }
}

pub fn sha256(message: &[u8]) -> [u8; 32] {
    let mut digest = [0; 32];
    assert!(sha256_into(message, &mut digest), "32 bytes were refused");
    digest
}

/// The length of the first piece of `rest`, a file from some piece's start on.
pub fn piece_length(rest: &[u8]) -> usize {
    // SAFETY: the pointer and the length are those of a slice, which lives
    // through the call.
    unsafe { zeltuva_piece_length(rest.as_ptr(), rest.len()) }
}
