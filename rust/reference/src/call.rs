//! 01, 'Where a number arises': 'Calls check in that order, then the last rows.'

use crate::answer::{Answer, INSTANCE, InFile, PASS, POLICIES, SCHEMA};
use crate::instance::{Entry, Instance};
use crate::pass::Pass;
use crate::policies::{Places, Policies};
use crate::schema::{Node, Schema};
use crate::table::table;

/// The answer of `call` on the schema, or the schema's breach.
#[inline(always)]
pub fn with_schema(schema: &[u8], call: impl FnOnce(&Schema) -> Result<u64, Answer>) -> Answer {
    table!(nodes, Node::UNREAD, Schema::rows(schema));
    let schema = Schema::read(schema, nodes).in_file(SCHEMA);
    schema.and_then(|schema| call(&schema)).map_or_else(|refusal| refusal, Answer::success)
}

/// The answer of `call` on the schema and an instance of it, or the first breach of the two.
#[inline(always)]
pub fn with_instance(
    schema: &[u8],
    instance: &[u8],
    call: impl FnOnce(&Schema, Instance) -> Result<u64, Answer>,
) -> Answer {
    with_schema(schema, |schema| {
        table!(entries, Entry::UNKNOWN, schema.count());
        let instance = Instance::read(schema, instance, entries).in_file(INSTANCE)?;
        call(schema, instance)
    })
}

/// The answer of `call` on the schema and the policies in force, or the first breach of schema,
/// policies and pass.
#[inline(always)]
pub fn with_policies(
    schema: &[u8],
    policies: &[u8],
    pass: Pass,
    call: impl FnOnce(&Schema, &Policies) -> Result<u64, Answer>,
) -> Answer {
    with_schema(schema, |schema| {
        table!(named, Places::NONE, schema.count());
        let in_force = |policy| pass.in_force(policy);
        let policies = Policies::read(schema, policies, named, in_force).in_file(POLICIES)?;
        pass.judge().in_file(PASS)?;
        call(schema, &policies)
    })
}
