//! The archive's C calls, and the library's only unsafe code: a slice passes as a pointer and a length in elements.
//! `tests/header.rs` holds these declarations to the C header.
#![allow(unsafe_code)]

mod capi {
    extern "C" {
        pub fn macaroosh_run(
            bundle: *const u8,
            bundle_length: usize,
            standing: *const u8,
            standing_length: usize,
            words: *mut u64,
            words_length: usize,
        ) -> u64;
        pub fn macaroosh_receipts(
            bundle: *const u8,
            bundle_length: usize,
            standing: *const u8,
            standing_length: usize,
            words: *mut u64,
            words_length: usize,
        ) -> u64;
        pub fn macaroosh_translate(
            bundle: *const u8,
            bundle_length: usize,
            standing: *const u8,
            standing_length: usize,
            out: *mut u8,
            out_length: usize,
        ) -> u64;
        pub fn macaroosh_translate_to(
            bundle: *const u8,
            bundle_length: usize,
            standing: *const u8,
            standing_length: usize,
            form: u64,
            out: *mut u8,
            out_length: usize,
        ) -> u64;
        pub fn macaroosh_first_step(
            bundle: *const u8,
            bundle_length: usize,
            standing: *const u8,
            standing_length: usize,
        ) -> u64;
        pub fn macaroosh_draw(table: *const u8, table_length: usize, out: *mut u8, out_length: usize) -> u64;
        pub fn macaroosh_undraw(text: *const u8, text_length: usize, out: *mut u8, out_length: usize) -> u64;
        pub fn macaroosh_replay(
            bundle: *const u8,
            bundle_length: usize,
            standing: *const u8,
            standing_length: usize,
            log: *const u8,
            log_length: usize,
            out: *mut u8,
            out_length: usize,
            words: *mut u64,
            words_length: usize,
        ) -> u64;
        pub fn macaroosh_search(
            bundle: *const u8,
            bundle_length: usize,
            standing: *const u8,
            standing_length: usize,
            depth: u64,
            budget: u64,
            out: *mut u8,
            out_length: usize,
            tried: *mut u64,
        ) -> u64;
        pub fn macaroosh_check_list(
            bundle: *const u8,
            bundle_length: usize,
            standing: *const u8,
            standing_length: usize,
            list: *const u64,
            list_length: usize,
        ) -> u64;
        pub fn macaroosh_to_second(table: *const u8, table_length: usize, out: *mut u8, out_length: usize) -> u64;
        pub fn macaroosh_to_first(table: *const u8, table_length: usize, out: *mut u8, out_length: usize) -> u64;
    }
}

/// The packed answer of a run.
#[inline]
pub fn run(bundle: &[u8], standing: &[u8], words: &mut [u64]) -> u64 {
    // SAFETY: each pointer and length are of one live slice, and the call is proved to stay inside of them.
    unsafe {
        capi::macaroosh_run(
            bundle.as_ptr(),
            bundle.len(),
            standing.as_ptr(),
            standing.len(),
            words.as_mut_ptr(),
            words.len(),
        )
    }
}

/// The packed answer of a run with its receipts and sends.
#[inline]
pub fn receipts(bundle: &[u8], standing: &[u8], words: &mut [u64]) -> u64 {
    // SAFETY: as above.
    unsafe {
        capi::macaroosh_receipts(
            bundle.as_ptr(),
            bundle.len(),
            standing.as_ptr(),
            standing.len(),
            words.as_mut_ptr(),
            words.len(),
        )
    }
}

/// The packed answer of a translation.
#[inline]
pub fn translate(bundle: &[u8], standing: &[u8], out: &mut [u8]) -> u64 {
    // SAFETY: as above.
    unsafe {
        capi::macaroosh_translate(
            bundle.as_ptr(),
            bundle.len(),
            standing.as_ptr(),
            standing.len(),
            out.as_mut_ptr(),
            out.len(),
        )
    }
}

/// The packed answer of a translation to the form of a number.
#[inline]
pub fn translate_to(bundle: &[u8], standing: &[u8], form: u64, out: &mut [u8]) -> u64 {
    // SAFETY: as above.
    unsafe {
        capi::macaroosh_translate_to(
            bundle.as_ptr(),
            bundle.len(),
            standing.as_ptr(),
            standing.len(),
            form,
            out.as_mut_ptr(),
            out.len(),
        )
    }
}

/// The packed step.
#[inline]
pub fn first_step(bundle: &[u8], standing: &[u8]) -> u64 {
    // SAFETY: as above.
    unsafe { capi::macaroosh_first_step(bundle.as_ptr(), bundle.len(), standing.as_ptr(), standing.len()) }
}

/// The packed answer of a drawing.
#[inline]
pub fn draw(table: &[u8], out: &mut [u8]) -> u64 {
    // SAFETY: as above.
    unsafe { capi::macaroosh_draw(table.as_ptr(), table.len(), out.as_mut_ptr(), out.len()) }
}

/// The packed answer of a drawing's reading.
#[inline]
pub fn undraw(text: &[u8], out: &mut [u8]) -> u64 {
    // SAFETY: as above.
    unsafe { capi::macaroosh_undraw(text.as_ptr(), text.len(), out.as_mut_ptr(), out.len()) }
}

/// The packed answer of a replay.
#[inline]
pub fn replay(bundle: &[u8], standing: &[u8], log: &[u8], out: &mut [u8], words: &mut [u64]) -> u64 {
    // SAFETY: as above.
    unsafe {
        capi::macaroosh_replay(
            bundle.as_ptr(),
            bundle.len(),
            standing.as_ptr(),
            standing.len(),
            log.as_ptr(),
            log.len(),
            out.as_mut_ptr(),
            out.len(),
            words.as_mut_ptr(),
            words.len(),
        )
    }
}

/// The packed answer of a search, and the number tried.
#[inline]
pub fn search(bundle: &[u8], standing: &[u8], depth: u64, budget: u64, out: &mut [u8], tried: &mut u64) -> u64 {
    // SAFETY: as above; the word is one that is lent.
    unsafe {
        capi::macaroosh_search(
            bundle.as_ptr(),
            bundle.len(),
            standing.as_ptr(),
            standing.len(),
            depth,
            budget,
            out.as_mut_ptr(),
            out.len(),
            tried,
        )
    }
}

/// The packed answer of a list's check.
#[inline]
pub fn check_list(bundle: &[u8], standing: &[u8], list: &[u64]) -> u64 {
    // SAFETY: as above.
    unsafe {
        capi::macaroosh_check_list(
            bundle.as_ptr(),
            bundle.len(),
            standing.as_ptr(),
            standing.len(),
            list.as_ptr(),
            list.len(),
        )
    }
}

/// The packed answer of a move to the second edition.
#[inline]
pub fn to_second(table: &[u8], out: &mut [u8]) -> u64 {
    // SAFETY: as above.
    unsafe { capi::macaroosh_to_second(table.as_ptr(), table.len(), out.as_mut_ptr(), out.len()) }
}

/// The packed answer of a move to the first edition.
#[inline]
pub fn to_first(table: &[u8], out: &mut [u8]) -> u64 {
    // SAFETY: as above.
    unsafe { capi::macaroosh_to_first(table.as_ptr(), table.len(), out.as_mut_ptr(), out.len()) }
}
