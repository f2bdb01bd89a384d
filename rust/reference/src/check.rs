//! 01, 'Checking and comparing': the checker.

use crate::answer::{Answer, INSTANCE, InFile};
use crate::call::with_policies;
use crate::instance::{CHOICE, Entry, HEAD, Instance, VALUES};
use crate::pass::Pass;
use crate::policies::{NOT_ALLOWED, Named, Policies};
use crate::schema::{Node, Schema};
use crate::table::{members, table};

/// Accepts an instance that meets the policies in force.
pub fn check(schema: &[u8], policies: &[u8], a: u16, b: u16, instance: &[u8]) -> Answer {
    with_policies(schema, policies, Pass { a, b }, |schema, in_force| {
        table!(entries, Entry::UNKNOWN, schema.count());
        let instance = Instance::read(schema, instance, entries).in_file(INSTANCE)?;
        match first_forbidden(schema, in_force, instance) {
            Some(offset) => Err(Answer::refusal(18, INSTANCE, offset as u64)),
            None => Ok(0),
        }
    })
}

/// The offset of the first choice or value field that a policy in force forbids.
fn first_forbidden(schema: &Schema, in_force: &Policies, instance: Instance) -> Option<usize> {
    let mut offset = HEAD;
    for number in members(instance.reached()) {
        let node = schema.node(number);
        let field = forbidden_field(node, in_force.naming(number), instance.entry(number));
        if let Some(field) = field {
            return Some(offset + field);
        }
        offset += node.entry_width();
    }
    None
}

/// The place in `entry` of the first field that one of `named` forbids.
fn forbidden_field(node: &Node, named: Named, entry: &Entry) -> Option<usize> {
    let refused = |index| named.iter().any(|policy| policy.rank(index) == NOT_ALLOWED);
    if node.chooses() && refused(node.index_of(entry.choice)) {
        return Some(CHOICE);
    }
    let mut field = VALUES;
    let mut condition = node.ranks();
    for (variable, value) in node.variables().iter().zip(entry.values) {
        if !named.iter().all(|policy| policy.admits(*variable, condition, value)) {
            return Some(field);
        }
        field += usize::from(variable.value_width());
        condition += variable.condition_width();
    }
    None
}
