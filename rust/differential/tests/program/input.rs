//! The records of standard input.

use differential::generate::DAY;
use reference::cases::{POLICIES, SCHEMA, hex};

use crate::made::{Files, largest, records};
use crate::run::{Run, Source};

/// On 01's example, the input as a file and as a pipe.
fn on_the_example(input: &[u8]) {
    let (schema, policies) = (hex(SCHEMA), hex(POLICIES));
    let whole = Run::on(&schema, &policies, input);
    whole.same();
    Run { input: Source::Pipe(input, 4_096), ..whole }.same();
}

#[test]
fn cut_at_each_length() {
    let (schema, policies, input) = (hex(SCHEMA), hex(POLICIES), records(95, 50));
    for length in 0..=input.len() {
        Run::on(&schema, &policies, &input[..length]).same();
    }
    for length in [1, 6, 143, 144, 145, 287, 288, 289] {
        on_the_example(&input[..length]);
    }
}

#[test]
fn a_wrong_mark_ends_the_run() {
    for good in [0, 3, 22, 23, 24, 25, 30, 47, 48, 49, 12_000] {
        for letter in [0, 1] {
            let mut input = records(95, good + 3);
            input[good * 6 + letter] = b'T';
            on_the_example(&input);
            on_the_example(&input[..good * 6 + 2]);
        }
    }
}

#[test]
fn many_passes_of_the_largest_files() {
    let Files { schema, policies } = largest();
    for count in [23, 24, 25, 48, 49, 500] {
        let input = records(DAY - 1, count);
        let whole = Run::on(&schema, &policies, &input);
        whole.same();
        Run { input: Source::Pipe(&input, input.len()), ..whole }.same();
    }
}

#[test]
fn that_comes_in_parts() {
    let Files { schema, policies } = largest();
    let input = &records(DAY - 1, 302)[..1_807];
    let whole = Run::on(&schema, &policies, input);
    for step in [1, 5, 6, 7, 143, 144, 145, 287, 288, 289, 1_000] {
        Run { input: Source::Pipe(input, step), ..whole }.same();
    }
}

#[test]
fn that_comes_while_the_program_is_stopped_and_continued() {
    let Files { schema, policies } = largest();
    let input = records(DAY - 1, 60);
    let whole = Run { stops: true, ..Run::on(&schema, &policies, &input) };
    Run { input: Source::Pipe(&input, 7), ..whole }.same();
}

#[test]
fn ten_thousand_records() {
    let (schema, policies, input) = (hex(SCHEMA), hex(POLICIES), records(95, 10_000));
    let whole = Run::on(&schema, &policies, &input);
    whole.same();
    Run { input: Source::Pipe(&input, 143), ..whole }.same();
}

#[test]
fn that_cannot_be_read() {
    let (schema, policies) = (hex(SCHEMA), hex(POLICIES));
    for input in [Source::Missing, Source::Directory, Source::Link("/proc/self/mem")] {
        Run { input, ..Run::on(&schema, &policies, &[]) }.prints(&[]);
    }
}
