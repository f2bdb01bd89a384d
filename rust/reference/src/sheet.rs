//! 02/1, 'Console sheet': an instance in lines of fixed columns.

use crate::answer::Answer;
use crate::call::with_instance;
use crate::instance::Instance;
use crate::schema::{NO_CHOICE, Schema};
use crate::table::members;

/// The bytes of a line before its line feed.
const COLUMNS: usize = 54;
/// The bytes of a line.
const LINE: usize = COLUMNS + 1;
/// Where the choice stands in a line.
const CHOICE: usize = 3;
/// Where the values begin in a line.
const VALUES: usize = 6;
/// The bytes of a space and a value.
const VALUE: usize = 12;

/// Writes the sheet of the instance it read.
pub fn sheet(schema: &[u8], instance: &[u8], out: &mut [u8]) -> Answer {
    with_instance(schema, instance, |schema, instance| {
        let length = LINE * instance.reached().count_ones() as usize;
        let out = out.get_mut(..length).ok_or(Answer::without_file(14))?;
        write(schema, instance, out);
        Ok(length as u64)
    })
}

/// A line for each entry.
fn write(schema: &Schema, instance: Instance, out: &mut [u8]) {
    for (line, number) in out.chunks_exact_mut(LINE).zip(members(instance.reached())) {
        let entry = instance.entry(number);
        let variables = schema.node(number).variables().len();
        write_line(number as u8, entry.choice, &entry.values[..variables], line);
    }
}

/// The line of one entry; what no number takes is blank.
fn write_line(number: u8, choice: u8, values: &[i32], line: &mut [u8]) {
    line.fill(b' ');
    line[COLUMNS] = b'\n';
    align_right(number.into(), &mut line[..2]);
    match choice {
        NO_CHOICE => line[CHOICE..VALUES].fill(b'-'),
        _ => align_right(choice.into(), &mut line[CHOICE..VALUES]),
    }
    for (value, cell) in values.iter().zip(line[VALUES..COLUMNS].chunks_exact_mut(VALUE)) {
        align_right(*value, cell);
    }
}

/// Puts `value` in decimal at the end of `cell`, a minus sign straight before its digits.
fn align_right(value: i32, cell: &mut [u8]) {
    let mut left = value.unsigned_abs();
    let mut first = cell.len() - 1;
    while left > 9 {
        cell[first] = b'0' + (left % 10) as u8;
        left /= 10;
        first -= 1;
    }
    cell[first] = b'0' + left as u8;
    if value < 0 {
        cell[first - 1] = b'-';
    }
}
