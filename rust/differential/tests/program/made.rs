//! Files of a wanted length, the largest ones, and records.

use differential::generate::DAY;
use differential::model::{
    Condition, Node, Policy, PolicyNode, Variable, policy_file, schema_file,
};
use differential::random::Random;
use differential::shapes::{self, Shape};

/// A schema file and a policies file.
pub struct Files {
    pub schema: Vec<u8>,
    pub policies: Vec<u8>,
}

impl Files {
    fn of(shape: &Shape) -> Self {
        let Shape { schema, policies, .. } = shape;
        Files { schema: schema_file(schema).bytes, policies: policy_file(policies).bytes }
    }
}

/// The largest files, where each day from `DAY` on has one policy less in force.
pub fn largest() -> Files {
    let mut shape = shapes::largest(&mut Random::new(1));
    for (number, policy) in shape.policies.iter_mut().enumerate() {
        (policy.first, policy.last) = (DAY, DAY + number as u16);
    }
    Files::of(&shape)
}

/// Files whose instances have the most bytes: every node is reached and has four numbers.
pub fn longest() -> Files {
    let node = |number: u8| {
        let successors: Vec<u8> = (number + 1..64).take(8).collect();
        let kind = u8::from(successors.is_empty());
        Node { kind, successors, variables: vec![Variable::Number(-1_000, 1_000); 4] }
    };
    Files::of(&shapes::named(&mut Random::new(2), (0..64).map(node).collect(), 2))
}

/// So many records, of one day or two from `day` on, each fifth of three.
pub fn records(day: u16, count: usize) -> Vec<u8> {
    let first = |i: usize| day + (i % 19) as u16;
    (0..count).flat_map(|i| record(first(i), first(i) + [0, 1, 1, 0, 2][i % 5])).collect()
}

/// So many records, of one day each from `day` on.
pub fn days(day: u16, count: usize) -> Vec<u8> {
    (day..).take(count).flat_map(|day| record(day, day)).collect()
}

fn record(a: u16, b: u16) -> Vec<u8> {
    [b"PS", &a.to_be_bytes()[..], &b.to_be_bytes()].concat()
}

/// Files of which the schema has `length` bytes, the last of them `size`, of a listed variable.
/// Only a size of 5 or more goes with the policies, and 5 to 32 give an instance.
pub fn schema_of(length: usize, size: u8) -> Files {
    let (count, more) = ((length - 10) / 6, (length - 10) % 6);
    let next = |number| Node { kind: 1, successors: vec![number + 1], variables: vec![] };
    let mut schema: Vec<Node> = (0..count as u8).map(next).collect();
    schema[0].successors = (1..=1 + more as u8).collect();
    schema.push(Node { kind: 1, successors: vec![], variables: vec![Variable::Listed(size)] });
    let conditions = vec![Condition::Mask(1 << 4)];
    let node = PolicyNode { node: count as u8, ranks: vec![], conditions };
    let policies = vec![Policy { first: 0, last: u16::MAX, nodes: vec![node] }];
    let files = Files::of(&Shape { schema, policies, pass: (0, 0) });
    assert_eq!(files.schema.len(), length);
    files
}

/// Node 0 leads to node 61, which chooses 62 or 63, and to 51 nodes (1 to 51) with PN of 43 bytes;
/// nodes 52 to 60 have PN of 11 to 3 bytes.
fn wide_schema() -> Vec<Node> {
    let node = |number: u8| {
        let (successors, variables): (Vec<u8>, usize) = match number {
            0 => (vec![1, 61], 0),
            1..=51 => ((number + 1..=number + 8).collect(), 4),
            52..=60 => ((number + 1..=60).collect(), 0),
            61 => (vec![62, 63], 0),
            _ => (vec![], 0),
        };
        let variables = vec![Variable::Number(-1_000, 1_000); variables];
        Node { kind: u8::from(number > 0), successors, variables }
    };
    (0..64).map(node).collect()
}

/// Files of which the policies have `length` bytes, 34 to 33,000, the last of them a rank that
/// decides: with 0 node 61 chooses 63, with 255 it chooses 62.
pub fn policies_of(length: usize, rank: u8) -> Files {
    const HEAD: usize = 7;
    const LAST: usize = HEAD + 5;
    const WHOLE: usize = HEAD + 51 * 43;
    let whole = (length - LAST - HEAD - 3) / WHOLE;
    let rest = length - LAST - whole * WHOLE - HEAD;
    let (wide, small) = ((rest - 3) / 43, (rest - 3) % 43 + 3);
    // which of the PN of 3 to 11 bytes make up the rest
    let bytes = |set: &usize| (0..9).filter(|bit| set >> bit & 1 == 1).map(|bit| bit + 3).sum();
    let set = (0..512).find(|set| small == bytes(set)).expect("a sum of 3 to 11");
    let mut shape = shapes::named(&mut Random::new(3), wide_schema(), whole + 2);
    for (number, policy) in shape.policies.iter_mut().enumerate() {
        policy.nodes.retain(|entry| match usize::from(entry.node) {
            node @ 1..=51 => number < whole || number == whole && node <= wide,
            node @ 52..=60 => number == whole && set >> (60 - node) & 1 == 1,
            node => number > whole && node == 61,
        });
    }
    shape.policies[whole + 1].nodes[0].ranks = vec![1, rank];
    let files = Files::of(&shape);
    assert_eq!(files.policies.len(), length);
    files
}
