//! Holds the reference to the cases.

use reference::cases::{Call, all};

#[test]
fn every_case_holds() {
    for case in all() {
        case.demand(Call::answer);
    }
}

#[test]
fn every_number_and_every_call_has_a_case() {
    for number in 0..=18 {
        assert!(all().iter().any(|case| case.number() == number), "number {number}");
    }
    for call in Call::ALL {
        assert!(all().iter().any(|case| case.call == call), "{call:?}");
    }
}
