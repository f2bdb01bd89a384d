//! The inputs of the benchmark, several of each sort, so that no call sees the one before.

use differential::generate;
use differential::model::{Node, instance_file, policy_file, schema_file};
use differential::random::Random;
use differential::shapes::{self, Shape};

/// What one call takes; the files that it does not take are empty.
pub struct Input {
    pub schema: Vec<u8>,
    pub policies: Vec<u8>,
    pub pass: (u16, u16),
    pub instance: Vec<u8>,
}

impl Input {
    fn of(shape: Shape) -> Self {
        Input {
            schema: schema_file(&shape.schema).bytes,
            policies: policy_file(&shape.policies).bytes,
            pass: shape.pass,
            instance: vec![],
        }
    }

    /// An instance of `schema`, and no policies.
    fn instance(random: &mut Random, schema: &[Node]) -> Self {
        let choices = generate::choices(random, schema);
        Input {
            schema: schema_file(schema).bytes,
            policies: vec![],
            pass: (0, 0),
            instance: instance_file(&generate::instance(random, schema, &choices)).bytes,
        }
    }

    /// The bytes of the files.
    pub fn bytes(&self) -> usize {
        self.schema.len() + self.policies.len() + self.instance.len()
    }
}

/// Inputs of one sort.
pub struct Group {
    pub name: String,
    pub inputs: Vec<Input>,
}

/// All inputs of `reconcile`.
pub fn groups(random: &mut Random) -> Vec<Group> {
    let mut groups = vec![
        group("worked example", 64, || worked_example(random)),
        group("16 nodes, 4 policies", 32, || {
            let schema = generate::schema(random, 16);
            shapes::named(random, schema, 4)
        }),
        group("largest: 64 nodes, 16 policies", 8, || shapes::largest(random)),
        sixty_four("chain", random, shapes::chain),
        sixty_four("ladder of diamonds", random, shapes::diamonds),
        sixty_four("ladder of two rails", random, shapes::rails),
        group("largest, every second node named", 8, || {
            let mut largest = shapes::largest(random);
            for policy in &mut largest.policies {
                policy.nodes.retain(|named| named.node % 2 == 0);
            }
            largest
        }),
    ];
    for policies in [1, 2, 4, 8, 16] {
        groups.push(group(&format!("largest schema, {policies} policies"), 8, || {
            let mut largest = shapes::largest(random);
            largest.policies.truncate(policies);
            largest
        }));
    }
    groups
}

/// All inputs of `sheet`.
pub fn instances(random: &mut Random) -> Vec<Group> {
    let mut of = |name: &str, count, schema: fn(&mut Random) -> Vec<Node>| {
        let input = |_| {
            let schema = schema(random);
            Input::instance(random, &schema)
        };
        Group { name: name.to_string(), inputs: (0..count).map(input).collect() }
    };
    vec![
        of("worked example", 64, |_| shapes::worked_example().schema),
        of("16 nodes", 32, |random| generate::schema(random, 16)),
        of("longest: 64 entries, 4 numbers each", 8, |random| shapes::longest(random).schema),
    ]
}

fn group(name: &str, count: usize, mut shape: impl FnMut() -> Shape) -> Group {
    let inputs = (0..count).map(|_| Input::of(shape())).collect();
    Group { name: name.to_string(), inputs }
}

/// 64 nodes of one shape with 4 policies that name each of them.
fn sixty_four(
    name: &str,
    random: &mut Random,
    schema: fn(&mut Random, usize) -> Vec<Node>,
) -> Group {
    group(&format!("{name}, 64 nodes, 4 policies"), 8, || {
        let schema = schema(random, 64);
        shapes::named(random, schema, 4)
    })
}

/// 01's worked example on one of its passes, with other ranks and bounds.
fn worked_example(random: &mut Random) -> Shape {
    let mut shape = shapes::worked_example();
    shape.pass = random.pick(&[(100, 100), (100, 101), (101, 101), (300, 300)]);
    for policy in &mut shape.policies {
        policy.nodes[0].ranks = vec![random.byte() / 2, random.byte() / 2];
    }
    shape
}
