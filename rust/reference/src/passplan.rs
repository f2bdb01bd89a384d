//! 01, 'The program': what passplan prints.

use std::io::Write;

use crate::answer::PASS;
use crate::fields::{Breach, Fields};
use crate::reconcile;

const FILE_BYTES: usize = 65_536;
const BUFFER: usize = 1_283;

/// All that the program prints for the two files and its standard input.
pub fn passplan(schema: &[u8], policies: &[u8], input: &[u8]) -> Vec<u8> {
    let schema = &schema[..schema.len().min(FILE_BYTES)];
    let policies = &policies[..policies.len().min(FILE_BYTES)];
    let mut printed = Vec::new();
    let mut fields = Fields::new(input);
    while !fields.at_end() {
        match pass(&mut fields) {
            Ok((a, b)) => line(&mut printed, schema, policies, a, b),
            Err(Breach { number, offset }) => {
                print(&mut printed, format_args!("- - {number} {PASS} {offset} -\n"));
                break;
            }
        }
    }
    printed
}

/// One PS.
fn pass(fields: &mut Fields) -> Result<(u16, u16), Breach> {
    fields.mark(b"PS")?;
    Ok((u16::from_be_bytes(fields.field()?), u16::from_be_bytes(fields.field()?)))
}

fn line(printed: &mut Vec<u8>, schema: &[u8], policies: &[u8], a: u16, b: u16) {
    let mut buffer = [0; BUFFER];
    let answer = reconcile(schema, policies, a, b, &mut buffer);
    let (number, file, offset) = (answer.number, answer.file, answer.offset);
    print(printed, format_args!("{a} {b} {number} {file} {offset} "));
    if number != 0 {
        print(printed, format_args!("-"));
    }
    for byte in &buffer[..answer.value as usize] {
        print(printed, format_args!("{byte:02x}"));
    }
    print(printed, format_args!("\n"));
}

fn print(printed: &mut Vec<u8>, text: std::fmt::Arguments) {
    printed.write_fmt(text).expect("a vector takes every byte");
}
