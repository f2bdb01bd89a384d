//! 01, 'Checking and comparing': the comparison.

use crate::answer::{Answer, INSTANCE, InFile, SECOND};
use crate::call::with_policies;
use crate::instance::{Entry, Instance};
use crate::order::is_better;
use crate::pass::Pass;
use crate::policies::Policies;
use crate::schema::Schema;
use crate::table::table;

/// The verdict that each is at least as good as the other.
pub const ALIKE: u64 = 0;
/// The verdict that the first instance is better.
pub const FIRST_BETTER: u64 = 1;
/// The verdict that the second instance is better.
pub const SECOND_BETTER: u64 = 2;
/// The verdict that neither is at least as good as the other.
pub const NEITHER: u64 = 3;

/// Says which of two instances is better.
pub fn compare(
    schema: &[u8],
    policies: &[u8],
    a: u16,
    b: u16,
    first: &[u8],
    second: &[u8],
) -> Answer {
    with_policies(schema, policies, Pass { a, b }, |schema, in_force| {
        table!(first_entries, Entry::UNKNOWN, schema.count());
        let first = Instance::read(schema, first, first_entries).in_file(INSTANCE)?;
        table!(second_entries, Entry::UNKNOWN, schema.count());
        let second = Instance::read(schema, second, second_entries).in_file(SECOND)?;
        Ok(verdict(schema, in_force, first, second))
    })
}

/// Goes from the root through the nodes at which the order asks, each once: where choices are
/// equal it asks below them, where they differ they decide.
fn verdict(schema: &Schema, in_force: &Policies, first: Instance, second: Instance) -> u64 {
    let mut asked = 1_u64;
    let mut first_at_least = true;
    let mut second_at_least = true;
    for (number, node) in schema.nodes().iter().enumerate() {
        if asked >> number & 1 == 0 {
            continue;
        }
        let [p, q] = [first, second].map(|instance| instance.entry(number).choice);
        if p == q {
            asked |= node.reaches(p);
        } else if is_better(in_force.naming(number), node.index_of(p), node.index_of(q)) {
            second_at_least = false;
        } else {
            first_at_least = false;
        }
    }
    match (first_at_least, second_at_least) {
        (true, true) => ALIKE,
        (true, false) => FIRST_BETTER,
        (false, true) => SECOND_BETTER,
        (false, false) => NEITHER,
    }
}
