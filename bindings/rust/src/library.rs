//! The static library: its lengths and its two functions, over slices of any length and any bytes.

/// How many bytes the pages have: 64 pages of 512.
pub const PAGES: usize = 32_768;
/// How many bytes the desk has: its head, the queue, 16 transactions and 256 locks.
pub const DESK: usize = 4_672;
/// How many bytes of answer space a call asks for: 16 answers of 20. More is welcome.
pub const ANSWERS: usize = 320;
/// How many bytes the longest request record has.
pub const REQUEST: usize = 24;
/// How many bytes an answer record has.
pub const ANSWER: usize = 20;

/// Transactions are numbered 1 to 16, by the caller.
pub const TRANSACTIONS: u16 = 16;

/// What a call returns: number 0 with the bytes of the answers written, or 10, 11 or 12 with 0
/// bytes and nothing changed.
#[derive(Clone, Copy, Debug, PartialEq, Eq)]
pub struct Returned {
    /// One of [`number`](crate::number): 0, 10, 11 or 12.
    pub number: u32,
    /// How many bytes of answer records were written.
    pub bytes: u32,
}

/// Makes the picture fresh: an empty index and nobody running. Gives 0, or 10 with nothing written
/// where the pages are not `PAGES` or the desk not `DESK` bytes.
pub fn fresh(pages: &mut [u8], desk: &mut [u8]) -> u32 {
    // SAFETY: each slice passes as its own pointer and length, and the library tests every length
    // before it reads or writes.
    let returned =
        unsafe { keydesk_fresh(pages.as_mut_ptr(), pages.len(), desk.as_mut_ptr(), desk.len()) };
    taken_apart(returned).number
}

/// Serves one request record on a picture. The slices may have any length and hold any bytes: what
/// is wrong with them is said by the number. Answer bytes beyond those written keep their values.
pub fn serve(pages: &mut [u8], desk: &mut [u8], answers: &mut [u8], request: &[u8]) -> Returned {
    // SAFETY: as in `fresh`.
    let returned = unsafe {
        keydesk_serve(
            pages.as_mut_ptr(),
            pages.len(),
            desk.as_mut_ptr(),
            desk.len(),
            answers.as_mut_ptr(),
            answers.len(),
            request.as_ptr(),
            request.len(),
        )
    };
    taken_apart(returned)
}

/// The library returns number * 2^32 + answer bytes.
fn taken_apart(returned: u64) -> Returned {
    Returned { number: (returned >> 32) as u32, bytes: returned as u32 }
}

unsafe extern "C" {
    fn keydesk_fresh(pages: *mut u8, pages_len: usize, desk: *mut u8, desk_len: usize) -> u64;
    fn keydesk_serve(
        pages: *mut u8,
        pages_len: usize,
        desk: *mut u8,
        desk_len: usize,
        answers: *mut u8,
        answers_len: usize,
        request: *const u8,
        request_len: usize,
    ) -> u64;
}
