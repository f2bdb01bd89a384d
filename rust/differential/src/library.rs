//! The static library under the reference's types.

use neulenta::raw;
use reference::Answer;
use reference::cases::{Call, Input};

/// The calls that are linked.
pub const LINKED: &[Call] = &[Call::Copy, Call::Reconcile, Call::Check, Call::Compare, Call::Sheet];

/// The library's answer.
pub fn answer(call: Call, input: &Input, out: &mut [u8]) -> Answer {
    let Input { schema, policies, pass: (a, b), first, second } = *input;
    let answer = match call {
        Call::Copy => raw::copy(schema, first, out),
        Call::Reconcile => raw::reconcile(schema, policies, a, b, out),
        Call::Check => raw::check(schema, policies, a, b, first),
        Call::Compare => raw::compare(schema, policies, a, b, first, second),
        Call::Sheet => raw::sheet(schema, first, out),
    };
    Answer { number: answer.number, file: answer.file, offset: answer.offset, value: answer.value }
}
