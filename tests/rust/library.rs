//! The library's calls on slices. All but `validate` are made under what `Under` has.

use super::reference::Under;

extern "C" {
    fn zuvaropy_validate(picture: *const u8, picture_len: usize) -> u64;
    fn zuvaropy_normalize(
        definitions: *const u8,
        definitions_len: usize,
        picture: *const u8,
        picture_len: usize,
        result: *mut u8,
        result_len: usize,
    ) -> u64;
    fn zuvaropy_subsumes(
        definitions: *const u8,
        definitions_len: usize,
        first: *const u8,
        first_len: usize,
        second: *const u8,
        second_len: usize,
        work: *mut u8,
        work_len: usize,
        result: *mut u8,
        result_len: usize,
    ) -> u64;
    fn zuvaropy_verify(
        definitions: *const u8,
        definitions_len: usize,
        first: *const u8,
        first_len: usize,
        second: *const u8,
        second_len: usize,
        evidence: *const u8,
        evidence_len: usize,
        work: *mut u8,
        work_len: usize,
    ) -> u64;
    fn zuvaropy_lcs(
        definitions: *const u8,
        definitions_len: usize,
        first: *const u8,
        first_len: usize,
        second: *const u8,
        second_len: usize,
        work: *mut u8,
        work_len: usize,
        result: *mut u8,
        result_len: usize,
    ) -> u64;
    fn zuvaropy_most_specific(
        definitions: *const u8,
        definitions_len: usize,
        case: *const u8,
        case_len: usize,
        book: *const u8,
        book_len: usize,
        work: *mut u8,
        work_len: usize,
    ) -> u64;
}

// The pointer of a slice is never null, and a slice lent for writing overlaps no other.

pub fn validate(picture: &[u8]) -> u64 {
    unsafe { zuvaropy_validate(picture.as_ptr(), picture.len()) }
}

pub fn normalize(under: Under, picture: &[u8], result: &mut [u8]) -> u64 {
    unsafe {
        zuvaropy_normalize(
            under.definitions.as_ptr(),
            under.definitions.len(),
            picture.as_ptr(),
            picture.len(),
            result.as_mut_ptr(),
            result.len(),
        )
    }
}

pub fn subsumes(under: Under, first: &[u8], second: &[u8], work: &mut [u8], result: &mut [u8]) -> u64 {
    unsafe {
        zuvaropy_subsumes(
            under.definitions.as_ptr(),
            under.definitions.len(),
            first.as_ptr(),
            first.len(),
            second.as_ptr(),
            second.len(),
            work.as_mut_ptr(),
            work.len(),
            result.as_mut_ptr(),
            result.len(),
        )
    }
}

pub fn verify(under: Under, first: &[u8], second: &[u8], evidence: &[u8], work: &mut [u8]) -> u64 {
    unsafe {
        zuvaropy_verify(
            under.definitions.as_ptr(),
            under.definitions.len(),
            first.as_ptr(),
            first.len(),
            second.as_ptr(),
            second.len(),
            evidence.as_ptr(),
            evidence.len(),
            work.as_mut_ptr(),
            work.len(),
        )
    }
}

pub fn lcs(under: Under, first: &[u8], second: &[u8], work: &mut [u8], result: &mut [u8]) -> u64 {
    unsafe {
        zuvaropy_lcs(
            under.definitions.as_ptr(),
            under.definitions.len(),
            first.as_ptr(),
            first.len(),
            second.as_ptr(),
            second.len(),
            work.as_mut_ptr(),
            work.len(),
            result.as_mut_ptr(),
            result.len(),
        )
    }
}

pub fn most_specific(under: Under, case: &[u8], book: &[u8], work: &mut [u8]) -> u64 {
    unsafe {
        zuvaropy_most_specific(
            under.definitions.as_ptr(),
            under.definitions.len(),
            case.as_ptr(),
            case.len(),
            book.as_ptr(),
            book.len(),
            work.as_mut_ptr(),
            work.len(),
        )
    }
}
