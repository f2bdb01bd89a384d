//! 01, 'Reconciling'.

use crate::answer::Answer;
use crate::call::with_policies;
use crate::copy::deliver;
use crate::instance::{Entry, Instance};
use crate::order::Successors;
use crate::pass::Pass;
use crate::policies::{Named, Policies};
use crate::schema::{NO_CHOICE, Node, Schema, VARIABLES, Variable, full_mask};
use crate::table::table;

/// Writes the instance that schema, policies and pass fix.
pub fn reconcile(schema: &[u8], policies: &[u8], a: u16, b: u16, out: &mut [u8]) -> Answer {
    with_policies(schema, policies, Pass { a, b }, |schema, in_force| {
        table!(entries, Entry::UNKNOWN, schema.count());
        let instance = best(schema, in_force, entries).ok_or(Answer::without_file(13))?;
        deliver(schema, instance, out)
    })
}

/// The instance that meets the policies in force, is at least as good as every other that does,
/// and has the least values; each node is judged once, after its successors.
#[inline(always)]
fn best<'a>(
    schema: &Schema,
    in_force: &Policies,
    entries: &'a mut [Entry],
) -> Option<Instance<'a>> {
    let mut can_be_met = 0;
    for (number, node) in schema.nodes().iter().enumerate().rev() {
        let named = in_force.naming(number);
        if let Some(entry) = best_entry(schema, node, named, can_be_met) {
            entries[number] = entry;
            can_be_met |= 1 << number;
        }
    }
    (can_be_met & 1 == 1).then(|| Instance::new(schema, entries))
}

#[inline(always)]
fn best_entry(schema: &Schema, node: &Node, named: Named, can_be_met: u64) -> Option<Entry> {
    let choice = best_choice(schema, node, named, can_be_met)?;
    let values = least_values(schema, node, named)?;
    Some(Entry { choice, values })
}

/// The best allowed successor that can be met, or 255 where there is none to choose; nothing
/// if a successor that the node needs cannot be met.
#[inline(always)]
fn best_choice(schema: &Schema, node: &Node, named: Named, can_be_met: u64) -> Option<u8> {
    let all = node.successors & !can_be_met == 0;
    if !node.chooses() {
        return all.then_some(NO_CHOICE);
    }
    let count = node.ranks();
    let meetable = |index| can_be_met >> schema.successor(node, index) & 1 == 1;
    let successors = if all { Successors::all(count) } else { Successors::those(count, meetable) };
    let index = successors.allowed(count, named).best(count, named)?;
    Some(schema.successor(node, index))
}

/// The least value of each variable that the schema and all of `named` admit.
#[inline(always)]
fn least_values(schema: &Schema, node: &Node, named: Named) -> Option<[i32; VARIABLES]> {
    use Variable::{Listed, Number};
    let mut offset = node.ranks();
    if let [Number(p), Number(q), Number(r), Number(s)] = *node.variables() {
        return least_numbers(schema, [p, q, r, s], named, offset);
    }
    let mut values = [0; VARIABLES];
    for (value, variable) in values.iter_mut().zip(node.variables()) {
        *value = match variable {
            Number(place) => {
                let [least] = least_numbers(schema, [*place], named, offset)?;
                least
            }
            Listed(size) => least_listed(*size, named, offset)?,
        };
        offset += variable.condition_width();
    }
    Some(values)
}

/// The least values of number variables that stand beside each other, the first's condition at
/// `offset`.
#[inline(always)]
fn least_numbers<const N: usize>(
    schema: &Schema,
    places: [u16; N],
    named: Named,
    offset: u8,
) -> Option<[i32; N]> {
    let mut ranges = places.map(|place| schema.bounds(place));
    for node in named.iter() {
        let conditions = node.ranges::<N>(offset);
        for index in 0..N {
            ranges[index] = ranges[index].and(conditions[index]);
        }
    }
    let mut values = [0; N];
    for index in 0..N {
        values[index] = ranges[index].least()?;
    }
    Some(values)
}

#[inline(always)]
fn least_listed(size: u8, named: Named, offset: u8) -> Option<i32> {
    let mask = named.iter().fold(full_mask(size), |mask, node| mask & node.mask(offset));
    (mask != 0).then(|| mask.trailing_zeros() as i32)
}
