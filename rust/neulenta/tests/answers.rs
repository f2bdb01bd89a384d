//! What an answer becomes, and the version of what is linked.

use neulenta::raw::Answer;
use neulenta::{File, Refusal, Refused};

const REFUSED: Answer = Answer { number: 9, file: 2, offset: 4, value: 0 };

#[test]
fn success_gives_the_value() {
    assert_eq!(Answer { number: 0, file: 0, offset: 0, value: 15 }.result(), Ok(15));
}

#[test]
fn a_refusal_has_number_file_and_offset() {
    let file = Some(File::Policies);
    let refused = Refused { refusal: Refusal::WrongPeriod, file, offset: 4 };
    assert_eq!(REFUSED.result(), Err(refused));
    assert_eq!(refused.to_string(), "number 9, policies, offset 4: last day below first day");
}

#[test]
fn a_refusal_without_a_file_names_none() {
    let refused = Answer { number: 13, file: 0, offset: 0, value: 0 }.result().unwrap_err();
    assert_eq!(refused.file, None);
    assert_eq!(refused.to_string(), "number 13: no instance meets the policies in force");
}

#[test]
#[should_panic = "the library answers number 19, which this wrapper does not have"]
fn another_number_panics() {
    let _ = Answer { number: 19, ..REFUSED }.result();
}

#[test]
#[should_panic = "the library answers file 6, which this wrapper does not have"]
fn another_file_panics() {
    let _ = Answer { file: 6, ..REFUSED }.result();
}

#[test]
fn the_library_has_the_version_of_the_wrapper() {
    assert_eq!(neulenta::version(), neulenta::VERSION);
    assert!(neulenta::compatible());
}
