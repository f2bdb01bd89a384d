//! What is printed, and to whom.

use std::env;
use std::io::Write;
use std::process::{Command, Stdio};

use differential::generate::DAY;
use reference::passplan;

use crate::made::{Files, days, longest};
use crate::run::{PROGRAM, Run};

#[test]
fn longest_lines() {
    let Files { schema, policies } = longest();
    let line = passplan(&schema, &policies, &days(DAY, 1));
    assert_eq!(line.len(), "20000 20000 0 0 0 \n".len() + 2 * 1_283);
    for count in [1, 23, 24, 25, 26, 48, 49, 300] {
        Run::on(&schema, &policies, &days(DAY, count)).same();
    }
}

#[test]
fn taken_slowly() {
    let Files { schema, policies } = longest();
    let input = days(DAY, 75);
    for step in [997, 4_095, 4_096, 4_097, 65_536] {
        let taken = Some(step);
        Run { taken, ..Run::on(&schema, &policies, &input) }.same();
    }
}

/// A write that is stopped and continued while it waits for room may move a part of its bytes.
#[test]
fn taken_slowly_while_the_program_is_stopped_and_continued() {
    let Files { schema, policies } = longest();
    let input = days(DAY, 75);
    for step in [4_095, 20_000] {
        let taken = Some(step);
        Run { taken, stops: true, ..Run::on(&schema, &policies, &input) }.same();
    }
}

/// Where nobody reads the lines, the run ends with the status that a shell tells of SIGPIPE.
#[test]
fn nobody_reads() {
    let mut program = Command::new(PROGRAM)
        .current_dir(env::temp_dir())
        .stdin(Stdio::piped())
        .stdout(Stdio::piped())
        .spawn()
        .expect("passplan is built: tools/build passplan");
    drop(program.stdout.take());
    let mut input = program.stdin.take().expect("a pipe");
    // what is not taken any more fails here
    let _ = input.write_all(&days(DAY, 49));
    drop(input);
    assert_eq!(program.wait().expect("the program ends").code(), Some(128 + 13));
}
