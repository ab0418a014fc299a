//! The functions of the archive, as include/waggleloft.h declares them, over slices.
//!
//! SAFETY of every call: the pointer of a slice or a reference is not null, is aligned and is valid
//! for the length that is passed with it, and a mutable one overlaps no other. The functions ask for
//! nothing else.

use crate::{BootInputs, Request, SHA384_STATE_BYTES, WORK_WORDS};

extern "C" {
    fn waggleloft_work_words() -> usize;
    fn waggleloft_image_words() -> usize;
    fn waggleloft_sha384_state_bytes() -> usize;
    fn waggleloft_open_cold_boot(
        image: *const u32,
        image_len: usize,
        runtime: *const u8,
        runtime_len: usize,
        manifest: *const u8,
        manifest_len: usize,
        secret: *const u8,
        secret_len: usize,
        work: *mut u32,
        work_len: usize,
        outcome: *mut u32,
    ) -> u32;
    fn waggleloft_open_update_boot(
        image: *const u32,
        image_len: usize,
        runtime: *const u8,
        runtime_len: usize,
        manifest: *const u8,
        manifest_len: usize,
        secret: *const u8,
        secret_len: usize,
        verdict: bool,
        work: *mut u32,
        work_len: usize,
        outcome: *mut u32,
    ) -> u32;
    fn waggleloft_open_request(
        image: *const u32,
        image_len: usize,
        code: u32,
        bytes: *const u8,
        bytes_len: usize,
        caller: u32,
        handoff: *const u8,
        handoff_len: usize,
        verdict: bool,
        fresh: *const u8,
        fresh_len: usize,
        work: *mut u32,
        work_len: usize,
    ) -> u32;
    fn waggleloft_left(work: *const u32, work_len: usize) -> usize;
    fn waggleloft_store(work: *mut u32, work_len: usize, image: *mut u32, image_len: usize) -> u32;
    fn waggleloft_answer(
        work: *const u32,
        work_len: usize,
        buffer: *mut u8,
        buffer_len: usize,
        written: *mut usize,
    ) -> u32;
    fn waggleloft_entry(
        work: *const u32,
        work_len: usize,
        buffer: *mut u8,
        buffer_len: usize,
        written: *mut usize,
    ) -> u32;
    fn waggleloft_sha384(
        message: *const u8,
        message_len: usize,
        buffer: *mut u8,
        buffer_len: usize,
    ) -> u32;
    fn waggleloft_sha384_begin(state: *mut u8, state_len: usize) -> u32;
    fn waggleloft_sha384_feed(
        state: *mut u8,
        state_len: usize,
        slice: *const u8,
        slice_len: usize,
    ) -> u32;
    fn waggleloft_sha384_finish(
        state: *const u8,
        state_len: usize,
        buffer: *mut u8,
        buffer_len: usize,
    ) -> u32;
    fn waggleloft_checksum(code: u32, bytes: *const u8, bytes_len: usize) -> u32;
}

/// Calls a function of the archive: `read` and `write` pass a slice as its pointer and its length,
/// `value` passes what it is.
macro_rules! call {
    ($function:ident) => { call!(@ $function ()) };
    ($function:ident, $($arguments:tt)*) => { call!(@ $function () $($arguments)*) };
    (@ $function:ident ($($done:expr,)*)) => {
        // SAFETY: see above.
        unsafe { $function($($done),*) }
    };
    (@ $function:ident ($($done:expr,)*) read $slice:expr $(, $($rest:tt)*)?) => {
        call!(@ $function ($($done,)* $slice.as_ptr(), $slice.len(),) $($($rest)*)?)
    };
    (@ $function:ident ($($done:expr,)*) write $slice:expr $(, $($rest:tt)*)?) => {
        call!(@ $function ($($done,)* $slice.as_mut_ptr(), $slice.len(),) $($($rest)*)?)
    };
    (@ $function:ident ($($done:expr,)*) value $value:expr $(, $($rest:tt)*)?) => {
        call!(@ $function ($($done,)* $value,) $($($rest)*)?)
    };
}

pub fn work_words() -> usize {
    call!(waggleloft_work_words)
}

pub fn image_words() -> usize {
    call!(waggleloft_image_words)
}

pub fn sha384_state_bytes() -> usize {
    call!(waggleloft_sha384_state_bytes)
}

pub fn open_cold_boot(
    image: &[u32],
    inputs: &BootInputs<'_>,
    work: &mut [u32; WORK_WORDS],
    outcome: &mut u32,
) -> u32 {
    call!(
        waggleloft_open_cold_boot,
        read image, read inputs.runtime, read inputs.manifest, read inputs.secret,
        write work, value outcome
    )
}

pub fn open_update_boot(
    image: &[u32],
    inputs: &BootInputs<'_>,
    verdict: bool,
    work: &mut [u32; WORK_WORDS],
    outcome: &mut u32,
) -> u32 {
    call!(
        waggleloft_open_update_boot,
        read image, read inputs.runtime, read inputs.manifest, read inputs.secret,
        value verdict, write work, value outcome
    )
}

pub fn open_request(image: &[u32], request: &Request<'_>, work: &mut [u32; WORK_WORDS]) -> u32 {
    call!(
        waggleloft_open_request,
        read image, value request.code, read request.bytes, value request.caller,
        read request.handoff, value request.verdict, read request.fresh, write work
    )
}

pub fn left(work: &[u32; WORK_WORDS]) -> usize {
    call!(waggleloft_left, read work)
}

pub fn store(work: &mut [u32; WORK_WORDS], image: &mut [u32]) -> u32 {
    call!(waggleloft_store, write work, write image)
}

pub fn answer(work: &[u32; WORK_WORDS], buffer: &mut [u8], written: &mut usize) -> u32 {
    call!(waggleloft_answer, read work, write buffer, value written)
}

pub fn entry(work: &[u32; WORK_WORDS], buffer: &mut [u8], written: &mut usize) -> u32 {
    call!(waggleloft_entry, read work, write buffer, value written)
}

pub fn sha384(message: &[u8], buffer: &mut [u8]) -> u32 {
    call!(waggleloft_sha384, read message, write buffer)
}

pub fn sha384_begin(state: &mut [u8; SHA384_STATE_BYTES]) -> u32 {
    call!(waggleloft_sha384_begin, write state)
}

pub fn sha384_feed(state: &mut [u8; SHA384_STATE_BYTES], slice: &[u8]) -> u32 {
    call!(waggleloft_sha384_feed, write state, read slice)
}

pub fn sha384_finish(state: &[u8; SHA384_STATE_BYTES], buffer: &mut [u8]) -> u32 {
    call!(waggleloft_sha384_finish, read state, write buffer)
}

pub fn checksum(code: u32, bytes: &[u8]) -> u32 {
    call!(waggleloft_checksum, value code, read bytes)
}
