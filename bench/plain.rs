//! The calls in plain C, on slices.

extern "C" {
    fn scan_validate(picture: *const u8, picture_len: usize) -> u64;
    fn merge_normalize(picture: *const u8, picture_len: usize, result: *mut u8, result_len: usize) -> u64;
    fn audit_verify(
        first: *const u8,
        first_len: usize,
        second: *const u8,
        second_len: usize,
        evidence: *const u8,
        evidence_len: usize,
        work: *mut u8,
        work_len: usize,
    ) -> u64;
}

// The pointer of a slice is never null, and a slice lent for writing overlaps no other.

pub fn validate(picture: &[u8]) -> u64 {
    unsafe { scan_validate(picture.as_ptr(), picture.len()) }
}

pub fn normalize(picture: &[u8], result: &mut [u8]) -> u64 {
    unsafe { merge_normalize(picture.as_ptr(), picture.len(), result.as_mut_ptr(), result.len()) }
}

pub fn verify(first: &[u8], second: &[u8], evidence: &[u8], work: &mut [u8]) -> u64 {
    unsafe {
        audit_verify(
            first.as_ptr(),
            first.len(),
            second.as_ptr(),
            second.len(),
            evidence.as_ptr(),
            evidence.len(),
            work.as_mut_ptr(),
            work.len(),
        )
    }
}
