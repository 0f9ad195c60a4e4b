//! The two C names, on slices. What each writes and returns is in docs/C_NAMES.md.
//!
//! A slice crosses as a pointer and a length, where it stands among the parameters.

extern "C" {
    fn stew_run(
        script: *const u8,
        length: usize,
        book: *const u8,
        book_length: usize,
        limit: u64,
        literals: *mut u8,
        literals_room: usize,
        entries: *mut u8,
        entries_room: usize,
        answer: *mut u8,
        answer_room: usize,
    ) -> u32;

    fn stew_raw_write(
        body: *const u8,
        length: usize,
        out: *mut u8,
        room: usize,
        answer: *mut u8,
        answer_room: usize,
    ) -> u32;
}

// SAFETY, of both calls: the names are total. They read and write nothing but the slices lent, each
// given by its own pointer and length, and keep none of them.

pub fn run(
    script: &[u8],
    book: &[u8],
    limit: u64,
    literals: &mut [u8],
    entries: &mut [u8],
    answer: &mut [u8],
) -> u32 {
    unsafe {
        stew_run(
            script.as_ptr(),
            script.len(),
            book.as_ptr(),
            book.len(),
            limit,
            literals.as_mut_ptr(),
            literals.len(),
            entries.as_mut_ptr(),
            entries.len(),
            answer.as_mut_ptr(),
            answer.len(),
        )
    }
}

pub fn raw_write(body: &[u8], out: &mut [u8], answer: &mut [u8]) -> u32 {
    unsafe {
        stew_raw_write(
            body.as_ptr(),
            body.len(),
            out.as_mut_ptr(),
            out.len(),
            answer.as_mut_ptr(),
            answer.len(),
        )
    }
}
