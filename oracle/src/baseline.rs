//! The Rust as a library that C calls: what the benchmark times beside ours.
#![allow(dead_code)]

// The Rust's own modules, put beside this file by the build.
#[path = "erltf/borrowed.rs"]
mod borrowed;
#[path = "erltf/decoder.rs"]
mod decoder;
#[path = "erltf/errors.rs"]
mod errors;
#[path = "erltf/tags.rs"]
mod tags;
#[path = "erltf/term.rs"]
mod term;
#[path = "erltf/types.rs"]
mod types;

/// Whether `decode_borrowed` accepts the bytes.
///
/// # Safety
/// `len` bytes are there at `b`.
#[unsafe(no_mangle)]
pub unsafe extern "C" fn rust_read(b: *const u8, len: usize) -> bool {
    decoder::decode_borrowed(unsafe { std::slice::from_raw_parts(b, len) }).is_ok()
}

/// How many leading bytes `str::from_utf8` takes for good.
///
/// # Safety
/// `len` bytes are there at `b`.
#[unsafe(no_mangle)]
pub unsafe extern "C" fn rust_utf8(b: *const u8, len: usize) -> usize {
    match std::str::from_utf8(unsafe { std::slice::from_raw_parts(b, len) }) {
        Ok(text) => text.len(),
        Err(error) => error.valid_up_to(),
    }
}
