//! System calls that move fewer bytes than asked, or fail. That faults.c is in effect is seen where
//! an error changes what is printed.

use differential::generate::DAY;
use reference::passplan;

use crate::made::{Files, days, largest, longest, records};
use crate::run::{Faults, Run};

const EINTR: u32 = 4;
const EIO: u32 = 5;

#[test]
fn short_reads() {
    let (Files { schema, policies }, input) = (largest(), records(DAY, 49));
    for most in [1, 5, 7, 143, 144, 145, 1_282, 1_283, 1_284, 4_095, 4_096, 4_097, 65_535] {
        let faults = Faults::ShortReads(most);
        Run { faults, ..Run::on(&schema, &policies, &input) }.same();
        Run { faults, ..Run::on(&schema, &policies, &input[..289]) }.same();
    }
}

#[test]
fn short_writes() {
    let (Files { schema, policies }, input) = (longest(), days(DAY, 49));
    for most in [1, 7, 4_095, 4_096, 4_097, 62_039, 65_535] {
        let faults = Faults::ShortWrites(most);
        Run { faults, ..Run::on(&schema, &policies, &input) }.same();
    }
}

/// After a read error anywhere in a file, its end included, the file counts as missing.
#[test]
fn a_read_error_in_a_file() {
    let (Files { schema, policies }, input) = (largest(), records(DAY, 25));
    let whole = Run::on(&schema, &policies, &input);
    let printed = [&[], &schema[..]].map(|schema| passplan(schema, &policies, &input));
    assert_ne!(printed[0], printed[1]);
    for after in [0, 1, 143, 144, 145, schema.len() - 1, schema.len()] {
        for errno in [EINTR, EIO] {
            let faults = Faults::Error { file: "schema.bin", after, errno };
            Run { faults, ..whole }.prints(&printed[0]);
        }
    }
    let printed = [&[], &policies[..]].map(|policies| passplan(&schema, policies, &input));
    assert_ne!(printed[0], printed[1]);
    let inside = [0, 1, 144, 1_282, 1_283, 1_284, 4_095, 4_096, 4_097, 40_000];
    for after in inside.into_iter().chain([policies.len() - 1, policies.len()]) {
        for errno in [EINTR, EIO] {
            let faults = Faults::Error { file: "policies.bin", after, errno };
            Run { faults, ..whole }.prints(&printed[0]);
        }
    }
}

#[test]
fn a_read_error_after_the_first_65536_bytes() {
    let (Files { schema, mut policies }, input) = (largest(), records(DAY, 25));
    policies.resize(65_537, 0);
    let whole = Run::on(&schema, &policies, &input);
    let error = |after| Faults::Error { file: "policies.bin", after, errno: EIO };
    Run { faults: error(65_536), ..whole }.same();
    Run { faults: error(65_535), ..whole }.prints(&passplan(&schema, &[], &input));
}

/// A read error counts as the end of the input.
#[test]
fn a_read_error_in_the_input() {
    let (Files { schema, policies }, input) = (largest(), records(DAY, 60));
    for after in [0, 1, 2, 5, 6, 143, 144, 145, 149, 150, 287, 288, 289, 359, 360] {
        let faults = Faults::Error { file: "stdin", after, errno: EIO };
        let wanted = passplan(&schema, &policies, &input[..after]);
        Run { faults, ..Run::on(&schema, &policies, &input) }.prints(&wanted);
    }
}

/// A failed write ends the run.
#[test]
fn a_write_error() {
    let (Files { schema, policies }, input) = (longest(), days(DAY, 60));
    let wanted = passplan(&schema, &policies, &input);
    for after in [0, 1, 4_095, 4_096, 4_097, 62_040, 65_536, 100_000] {
        for errno in [EINTR, EIO] {
            let faults = Faults::Error { file: "stdout", after, errno };
            Run { faults, ..Run::on(&schema, &policies, &input) }.prints(&wanted[..after]);
        }
    }
}
