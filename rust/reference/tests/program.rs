//! Holds what the reference prints as passplan to 01's 'The program'.

use reference::cases::{POLICIES, SCHEMA, hex};
use reference::passplan;

fn printed(schema: &str, policies: &str, input: &str) -> String {
    let printed = passplan(&hex(schema), &hex(policies), &hex(input));
    String::from_utf8(printed).expect("lines are ASCII")
}

#[test]
fn the_worked_example() {
    let lines = "100 100 0 0 0 494802494e0001494e01ff00000001\n\
                 100 101 0 0 0 494802494e0001494e01ff00000004\n\
                 101 101 0 0 0 494802494e0002494e02ff\n\
                 101 100 12 3 0 -\n";
    let input = "505300640064 505300640065 505300650065 505300650064";
    assert_eq!(printed(SCHEMA, POLICIES, input), lines);
}

#[test]
fn no_input_prints_nothing() {
    assert_eq!(printed(SCHEMA, POLICIES, ""), "");
}

#[test]
fn a_missing_file_reads_as_empty() {
    assert_eq!(printed("", "", "505300000001"), "0 1 2 1 0 -\n");
}

#[test]
fn a_refused_pass_does_not_end_the_run() {
    let lines = "1 0 12 3 0 -\n9 9 0 0 0 494802494e0001494e01ff00000001\n";
    assert_eq!(printed(SCHEMA, POLICIES, "505300010000 505300090009"), lines);
}

#[test]
fn a_bad_record_ends_the_run() {
    let good = "505300090009";
    let line = "9 9 0 0 0 494802494e0001494e01ff00000001\n";
    for (bad, breach) in [
        ("5051", "- - 1 3 6 -\n"),
        ("50", "- - 2 3 6 -\n"),
        ("5053", "- - 2 3 8 -\n"),
        ("505300", "- - 2 3 8 -\n"),
        ("50530000", "- - 2 3 10 -\n"),
        ("5053000000", "- - 2 3 10 -\n"),
        ("505100000000 505300090009", "- - 1 3 6 -\n"),
    ] {
        let lines = [line, breach].concat();
        assert_eq!(printed(SCHEMA, POLICIES, &[good, bad].concat()), lines, "{bad}");
    }
}

#[test]
fn a_bad_record_comes_before_bad_files() {
    assert_eq!(printed("00", "00", "5050"), "- - 1 3 0 -\n");
}

#[test]
fn bytes_after_the_first_65536_change_nothing() {
    let mut policies = hex(POLICIES);
    for length in [65_536, 65_537, 70_000] {
        policies.resize(length, 0);
        let printed = passplan(&hex(SCHEMA), &policies, &hex("505300640064"));
        assert_eq!(printed, b"100 100 1 2 35 -\n", "{length}");
    }
}
