//! 01, 'Instance' and 'Instance and satisfaction': what an instance is, its reader and writer.

use crate::fields::{Breach, Fields};
use crate::schema::{Node, Schema, VARIABLES, Variable};
use crate::table::members;

/// The bytes of an IH.
pub const HEAD: usize = 3;
/// Where an entry's choice stands in it.
pub const CHOICE: usize = 3;
/// Where an entry's first value stands in it.
pub const VALUES: usize = 4;

/// What an instance says of one node.
#[derive(Clone, Copy, Debug, PartialEq, Eq)]
pub struct Entry {
    /// The chosen successor, or 255.
    pub choice: u8,
    /// The values, as many as the node has variables.
    pub values: [i32; VARIABLES],
}

impl Entry {
    /// A row of the table before the node's entry is known.
    pub const UNKNOWN: Entry = Entry { choice: 0, values: [0; VARIABLES] };
}

/// An instance: an entry for exactly the reached nodes.
#[derive(Clone, Copy, Debug)]
pub struct Instance<'a> {
    reached: u64,
    entries: &'a [Entry],
}

impl<'a> Instance<'a> {
    /// The instance that the choices of `entries` make; rows of nodes not reached don't count.
    #[inline(always)]
    pub fn new(schema: &Schema, entries: &'a [Entry]) -> Self {
        let mut reached = 1;
        for (number, (node, entry)) in schema.nodes().iter().zip(entries).enumerate() {
            if reached >> number & 1 == 1 {
                reached |= node.reaches(entry.choice);
            }
        }
        Instance { reached, entries }
    }

    /// Reads the instance file `bytes` of `schema` into `table`, or gives its first breach.
    pub fn read(schema: &Schema, bytes: &[u8], table: &'a mut [Entry]) -> Result<Self, Breach> {
        let mut fields = Fields::new(bytes);
        fields.mark(b"IH")?;
        let at_count = fields;
        let [m] = fields.field()?;
        let mut reached = 0;
        let mut awaited = 1;
        for _ in 0..m {
            let number = read_number(&mut fields, awaited)?;
            let node = schema.node(number);
            let [choice] = fields.judged(16, |[choice]| node.is_choice(choice))?;
            table[number] = Entry { choice, values: read_values(&mut fields, schema, node)? };
            reached |= 1 << number;
            awaited = awaited & (awaited - 1) | node.reaches(choice);
        }
        if awaited != 0 {
            return Err(at_count.breach(15));
        }
        fields.end()?;
        Ok(Instance { reached, entries: table })
    }

    /// The nodes that have an entry.
    pub fn reached(&self) -> u64 {
        self.reached
    }

    /// The entry of a reached node.
    pub fn entry(&self, number: usize) -> &'a Entry {
        &self.entries[number]
    }

    /// The bytes of the instance's file.
    #[inline(always)]
    pub fn length(&self, schema: &Schema) -> usize {
        members(self.reached).fold(HEAD, |sum, number| sum + schema.node(number).entry_width())
    }

    /// Writes the instance's file at the start of `out`, which has room for it.
    #[inline(always)]
    pub fn write(&self, schema: &Schema, out: &mut [u8]) {
        out[..HEAD].copy_from_slice(&[b'I', b'H', self.reached.count_ones() as u8]);
        let mut at = HEAD;
        for number in members(self.reached) {
            let entry = &self.entries[number];
            out[at..at + VALUES].copy_from_slice(&[b'I', b'N', number as u8, entry.choice]);
            at += VALUES;
            for (variable, value) in schema.node(number).variables().iter().zip(entry.values) {
                match variable {
                    Variable::Number(_) => {
                        out[at..at + 4].copy_from_slice(&value.to_be_bytes());
                        at += 4;
                    }
                    Variable::Listed(_) => {
                        out[at] = value as u8;
                        at += 1;
                    }
                }
            }
        }
    }
}

/// The mark and node of an IN: the node is the lowest that is `awaited`.
fn read_number(fields: &mut Fields, awaited: u64) -> Result<usize, Breach> {
    fields.mark(b"IN")?;
    let lowest = awaited.trailing_zeros();
    let [number] = fields.judged(15, |[number]| awaited != 0 && u32::from(number) == lowest)?;
    Ok(usize::from(number))
}

fn read_values(
    fields: &mut Fields,
    schema: &Schema,
    node: &Node,
) -> Result<[i32; VARIABLES], Breach> {
    let mut values = [0; VARIABLES];
    for (value, variable) in values.iter_mut().zip(node.variables()) {
        *value = match variable {
            Variable::Number(place) => {
                let bounds = schema.bounds(*place);
                let inside = |value| bounds.contains(i32::from_be_bytes(value));
                i32::from_be_bytes(fields.judged(17, inside)?)
            }
            Variable::Listed(size) => {
                let [value] = fields.judged(17, |[value]| value < *size)?;
                i32::from(value)
            }
        };
    }
    Ok(values)
}
