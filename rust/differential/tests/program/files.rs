//! What schema.bin and policies.bin may be.

use differential::generate::DAY;
use reference::cases::{POLICIES, SCHEMA, hex};
use reference::passplan;

use crate::made::{Files, largest, policies_of, records, schema_of};
use crate::run::{Run, Source};

/// The lengths of the buffers that the program and its libraries have.
const BUFFERS: [usize; 4] = [144, 1_283, 4_096, 65_536];

/// One byte less than a length, as many, and one more.
fn around(length: usize) -> [usize; 3] {
    [length - 1, length, length + 1]
}

fn same(files: &Files, input: &[u8]) {
    Run::on(&files.schema, &files.policies, input).same();
}

/// Each of the two files in turn replaced by `source`.
fn in_place_of_each(source: Source) {
    let (schema, policies, input) = (hex(SCHEMA), hex(POLICIES), records(98, 7));
    let whole = Run::on(&schema, &policies, &input);
    Run { schema: source, ..whole }.same();
    Run { policies: source, ..whole }.same();
    Run { schema: source, policies: source, ..whole }.same();
}

#[test]
fn cut_at_each_length() {
    let (schema, policies, input) = (hex(SCHEMA), hex(POLICIES), records(98, 7));
    for length in 0..schema.len() {
        Run::on(&schema[..length], &policies, &input).same();
    }
    for length in 0..policies.len() {
        Run::on(&schema, &policies[..length], &input).same();
    }
}

#[test]
fn that_cannot_be_read() {
    in_place_of_each(Source::Missing);
    in_place_of_each(Source::Directory);
    in_place_of_each(Source::Socket);
    in_place_of_each(Source::Link("no such file"));
    in_place_of_each(Source::Link("/proc/self/mem"));
    in_place_of_each(Source::Locked(&hex(SCHEMA)));
}

#[test]
fn that_are_empty() {
    in_place_of_each(Source::File(&[]));
    in_place_of_each(Source::Pipe(&[], 1));
}

#[test]
fn that_have_no_end() {
    let (schema, policies, input) = (hex(SCHEMA), hex(POLICIES), records(98, 7));
    let endless = Source::Link("/dev/zero");
    let whole = Run::on(&schema, &policies, &input);
    Run { schema: endless, ..whole }.prints(&passplan(&[0; 65_536], &policies, &input));
    Run { policies: endless, ..whole }.prints(&passplan(&schema, &[0; 65_536], &input));
}

#[test]
fn as_long_as_a_buffer() {
    let input = records(DAY, 3);
    for length in BUFFERS.into_iter().flat_map(around) {
        for byte in [0, b'P'] {
            let mut files = largest();
            files.schema.resize(length, byte);
            same(&files, &input);
            let mut files = largest();
            files.policies.resize(length, byte);
            same(&files, &input);
        }
    }
}

/// What is printed for the files; with a byte after one of them both programs print the same too.
fn lines(mut files: Files, longer: fn(&mut Files) -> &mut Vec<u8>) -> Vec<u8> {
    let input = records(DAY, 2);
    same(&files, &input);
    let printed = passplan(&files.schema, &files.policies, &input);
    longer(&mut files).push(0);
    same(&files, &input);
    printed
}

#[test]
fn whose_last_byte_decides() {
    for length in around(144) {
        let [four, five] =
            [4, 5].map(|size| lines(schema_of(length, size), |files| &mut files.schema));
        assert_ne!(four, five);
    }
    for length in [144, 1_283, 4_096, 8_192, 12_288, 16_384, 32_768].into_iter().flat_map(around) {
        let [least, most] =
            [0, 255].map(|rank| lines(policies_of(length, rank), |files| &mut files.policies));
        assert_ne!(least, most);
    }
}

#[test]
fn spoiled_around_each_page() {
    let (files, input) = (largest(), records(DAY + 3, 2));
    for place in (4_096..files.policies.len()).step_by(4_096).flat_map(around) {
        let mut policies = files.policies.clone();
        policies[place] ^= 0xff;
        Run::on(&files.schema, &policies, &input).same();
        Run::on(&files.schema, &policies[..place], &input).same();
    }
}

#[test]
fn that_come_in_parts() {
    let (Files { schema, policies }, input) = (largest(), records(DAY, 25));
    for step in [1, 7, 143, 144, 145, 1_282, 1_283, 1_284, 4_095, 4_096, 4_097, 65_535] {
        let whole = Run::on(&schema, &policies, &input);
        Run { schema: Source::Pipe(&schema, step), ..whole }.same();
        let step = step.max(61);
        Run { policies: Source::Pipe(&policies, step), ..whole }.same();
        let [schema, policies, input] =
            [&schema, &policies, &input].map(|bytes| Source::Pipe(bytes, step));
        Run { schema, policies, input, ..whole }.same();
    }
}

#[test]
fn that_come_in_parts_and_are_too_long() {
    let (mut files, input) = (largest(), records(DAY, 2));
    files.policies.resize(70_000, b'P');
    for step in [999, 1_283, 4_096, 65_536, 65_537] {
        let policies = Source::Pipe(&files.policies, step);
        Run { policies, ..Run::on(&files.schema, &[], &input) }.same();
    }
}
