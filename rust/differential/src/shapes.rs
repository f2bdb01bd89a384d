//! Inputs of a fixed shape: 01's worked example, chains, ladders, the largest input and the longest
//! instance.

use crate::generate::{self, Temper};
use crate::model::{Condition, Node, Policy, PolicyNode, Variable};
use crate::random::Random;

/// A schema, policies for it, and a pass.
#[derive(Clone, Debug)]
pub struct Shape {
    /// The schema's nodes.
    pub schema: Vec<Node>,
    /// The policies.
    pub policies: Vec<Policy>,
    /// The first and last day of the pass.
    pub pass: (u16, u16),
}

/// 01's schema.bin and policies.bin.
pub fn worked_example() -> Shape {
    let leaf = |variables| Node { kind: 1, successors: vec![], variables };
    let root = Node { kind: 1, successors: vec![1, 2], variables: vec![] };
    let ranks = |ranks| PolicyNode { node: 0, ranks, conditions: vec![] };
    let range = PolicyNode { node: 1, ranks: vec![], conditions: vec![Condition::Range(4, 8)] };
    Shape {
        schema: vec![root, leaf(vec![Variable::Number(1, 10)]), leaf(vec![])],
        policies: vec![
            Policy { first: 100, last: 100, nodes: vec![ranks(vec![0, 5])] },
            Policy { first: 101, last: 200, nodes: vec![ranks(vec![1, 0]), range] },
        ],
        pass: (100, 101),
    }
}

/// Each node has the next as its only successor.
pub fn chain(random: &mut Random, count: usize) -> Vec<Node> {
    linked(random, count, |number| vec![number + 1])
}

/// Diamonds one after the other: a top, two sides, and their bottom, the next diamond's top.
pub fn diamonds(random: &mut Random, count: usize) -> Vec<Node> {
    linked(random, count, |number| match number % 3 {
        0 => vec![number + 1, number + 2],
        1 => vec![number + 2],
        _ => vec![number + 1],
    })
}

/// Two rails: each node of a rung leads to both nodes of the next.
pub fn rails(random: &mut Random, count: usize) -> Vec<Node> {
    linked(random, count, |number| {
        let next = number + 1 + number % 2;
        vec![next, next + 1]
    })
}

/// A schema whose node n has those `successors` of n that exist, of either kind.
fn linked(
    random: &mut Random,
    count: usize,
    successors: impl Fn(usize) -> Vec<usize>,
) -> Vec<Node> {
    let node = |number| {
        let existing = successors(number).into_iter().filter(|next| *next < count);
        let successors: Vec<u8> = existing.map(|next| next as u8).collect();
        let kind = if successors.is_empty() { 1 } else { random.below(2) as u8 };
        let variables = random.below(5);
        let variables = (0..variables).map(|_| generate::variable(random)).collect();
        Node { kind, successors, variables }
    };
    (0..count).map(node).collect()
}

/// `count` policies that are in force every day, name every node and leave an instance.
fn naming_all(random: &mut Random, schema: &[Node], count: usize) -> Vec<Policy> {
    let temper = Temper { harsh: usize::MAX, named: 1, rank: 254 };
    let policy = |_| {
        let nodes = schema.iter().enumerate();
        let nodes =
            nodes.map(|(number, node)| generate::policy_node(random, number as u8, node, temper));
        Policy { first: 0, last: u16::MAX, nodes: nodes.collect() }
    };
    (0..count).map(policy).collect()
}

/// 64 nodes with as many successors and number variables as a schema can have, and 16 policies
/// that name each node.
pub fn largest(random: &mut Random) -> Shape {
    let node = |number: usize| {
        let successors: Vec<u8> = (number + 1..64).take(8).map(|next| next as u8).collect();
        Node { kind: 1, successors, variables: vec![Variable::Number(-1_000, 1_000); 4] }
    };
    let schema: Vec<Node> = (0..64).map(node).collect();
    named(random, schema, 16)
}

/// A chain of 64 nodes with four numbers of any value each, and a policy that names each node: its
/// instance is the longest, and so is its sheet.
pub fn longest(random: &mut Random) -> Shape {
    let mut schema = chain(random, 64);
    for node in &mut schema {
        node.variables = vec![Variable::Number(i32::MIN, i32::MAX); 4];
    }
    named(random, schema, 1)
}

/// `schema` with `count` policies that name all of it.
pub fn named(random: &mut Random, schema: Vec<Node>, count: usize) -> Shape {
    let policies = naming_all(random, &schema, count);
    Shape { schema, policies, pass: (generate::DAY, generate::DAY + 1) }
}

/// The worked example, the largest input, the longest instance, and 64 nodes of each other shape.
pub fn all(random: &mut Random) -> Vec<Shape> {
    let schemas = [chain(random, 64), diamonds(random, 64), rails(random, 64)];
    let mut shapes = vec![worked_example(), largest(random), longest(random)];
    shapes.extend(schemas.map(|schema| named(random, schema, 4)));
    shapes
}
