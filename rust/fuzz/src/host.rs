//! The static library's calls, on blocks that `host.c` makes.

use reference::Answer;
use reference::cases::{Call, Input};

/// Where files and buffer lie during a call.
#[derive(Clone, Copy, Debug)]
#[repr(u32)]
pub enum Place {
    /// On the heap, between what AddressSanitizer watches.
    Heap,
    /// Each right before a page that cannot be touched.
    BeforeGuard,
    /// Each right after one.
    AfterGuard,
    /// One right after the other, the buffer last.
    Together,
}

impl Place {
    /// Every place.
    pub const ALL: [Place; 4] =
        [Place::Heap, Place::BeforeGuard, Place::AfterGuard, Place::Together];
}

/// `neulenta_answer`.
#[repr(C)]
struct LibraryAnswer {
    number: u32,
    file: u32,
    offset: u64,
    value: u64,
}

/// `host_file`.
#[repr(C)]
struct File {
    bytes: *const u8,
    length: usize,
}

unsafe extern "C" {
    fn host_answer(
        call: u32,
        place: u32,
        files: *const File,
        a: u16,
        b: u16,
        out: *mut u8,
        out_length: usize,
    ) -> LibraryAnswer;
}

/// The library's answer; `out` becomes what the call leaves of it.
pub fn answer(call: Call, place: Place, input: &Input, out: &mut [u8]) -> Answer {
    let Input { schema, policies, pass: (a, b), first, second } = *input;
    let files = [schema, policies, first, second];
    let files = files.map(|file| File { bytes: file.as_ptr(), length: file.len() });
    // SAFETY: the four files and `out` are as long as is said.
    let answer = unsafe {
        host_answer(call as u32, place as u32, files.as_ptr(), a, b, out.as_mut_ptr(), out.len())
    };
    Answer { number: answer.number, file: answer.file, offset: answer.offset, value: answer.value }
}
