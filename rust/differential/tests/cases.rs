//! Holds the static library to the cases, as the reference's own tests hold the reference.

use differential::library::{LINKED, answer};
use neulenta::{File, Verdict};
use reference::Answer;
use reference::cases::{Call, Input, all};

/// What the wrapper's result says, as an answer.
fn result(call: Call, input: &Input, out: &mut [u8]) -> Answer {
    let Input { schema, policies, pass: (a, b), first, second } = *input;
    let length = |length| length as u64;
    let result = match call {
        Call::Copy => neulenta::copy(schema, first, out).map(length),
        Call::Reconcile => neulenta::reconcile(schema, policies, a, b, out).map(length),
        Call::Check => neulenta::check(schema, policies, a, b, first).map(|()| 0),
        Call::Compare => {
            neulenta::compare(schema, policies, a, b, first, second).map(Verdict::number)
        }
        Call::Sheet => neulenta::sheet(schema, first, out).map(length),
    };
    result.map_or_else(
        |no| Answer::refusal(no.refusal.number(), no.file.map_or(0, File::number), no.offset),
        Answer::success,
    )
}

#[test]
fn every_case_of_a_linked_call_holds() {
    let mut held = 0;
    for case in all().iter().filter(|case| LINKED.contains(&case.call)) {
        case.demand(answer);
        case.demand(result);
        held += 1;
    }
    assert!(held >= 20 * LINKED.len(), "{held} cases for {LINKED:?}");
}
