//! What libFuzzer calls: each input is one call of the static library, through `host.c`, and of
//! the reference, whose code is the one that measures coverage.

mod host;
mod mutation;
mod seeds;
mod trial;

use std::env;
use std::path::Path;
use std::process;
use std::slice;

use trial::Trial;

/// The option after which the program writes the seeds into a folder and ends.
const SEEDS: &str = "--seeds=";

#[unsafe(no_mangle)]
extern "C" fn LLVMFuzzerInitialize(_: *mut i32, _: *mut *mut *mut u8) -> i32 {
    for option in env::args() {
        if let Some(folder) = option.strip_prefix(SEEDS) {
            seeds::write(Path::new(folder)).expect("the seeds can be written");
            process::exit(0);
        }
    }
    0
}

/// # Safety
///
/// `data` has `size` bytes.
#[unsafe(no_mangle)]
unsafe extern "C" fn LLVMFuzzerTestOneInput(data: *const u8, size: usize) -> i32 {
    // SAFETY: libFuzzer lends that many bytes.
    let bytes = unsafe { slice::from_raw_parts(data, size) };
    Trial::read(bytes).demand_equal();
    0
}

/// # Safety
///
/// `data` has `most` bytes, of which the first `size` are the input.
#[unsafe(no_mangle)]
unsafe extern "C" fn LLVMFuzzerCustomMutator(
    data: *mut u8,
    size: usize,
    most: usize,
    seed: u32,
) -> usize {
    // SAFETY: libFuzzer lends that many bytes.
    let bytes = unsafe { slice::from_raw_parts_mut(data, most) };
    let mutant = mutation::mutant(&bytes[..size], most, seed);
    let length = mutant.len().min(most);
    bytes[..length].copy_from_slice(&mutant[..length]);
    length
}
