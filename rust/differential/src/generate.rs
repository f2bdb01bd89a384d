//! Random valid files.

use crate::model::{Condition, Entry, Node, Policy, PolicyNode, Value, Variable};
use crate::random::Random;

/// The day around which most policies and passes lie.
pub const DAY: u16 = 20_000;

/// A schema of `count` nodes: every kind, shared successors, leaves, all sorts of variables.
pub fn schema(random: &mut Random, count: usize) -> Vec<Node> {
    let reach = random.pick(&[2, 4, 10, 64]);
    (0..count).map(|number| node(random, number, count, reach)).collect()
}

/// Node `number`, whose successors lie within `reach` above it.
fn node(random: &mut Random, number: usize, count: usize, reach: usize) -> Node {
    let last = (number + reach).min(count - 1);
    let mut above: Vec<u8> = (number + 1..=last).map(|successor| successor as u8).collect();
    let kind = if above.is_empty() { 1 } else { random.below(2) as u8 };
    let least = usize::from(kind == 0 || random.below(8) > 0);
    let most = above.len().min(random.pick(&[1, 2, 3, 8]));
    let degree = random.within(least.min(most) as i64..=most as i64) as usize;
    while above.len() > degree {
        above.remove(random.below(above.len()));
    }
    let variables = random.below(5);
    Node { kind, successors: above, variables: (0..variables).map(|_| variable(random)).collect() }
}

/// A variable of either type, often at the ends of what a file can say.
pub fn variable(random: &mut Random) -> Variable {
    if random.once_in(2) {
        let size = random.within(1..=32);
        return Variable::Listed(random.pick(&[1, 2, 5, 32, size]) as u8);
    }
    let (p, q) = (random.number() as i32, random.number() as i32);
    random.pick(&[
        Variable::Number(i32::MIN, i32::MAX),
        Variable::Number(i32::MIN, i32::MIN),
        Variable::Number(i32::MAX, i32::MAX),
        Variable::Number(-5, -1),
        Variable::Number(-3, 4),
        Variable::Number(1, 10),
        Variable::Number(p.min(q), p.max(q)),
        Variable::Number(p, p),
    ])
}

/// How a set of policies is drawn.
#[derive(Clone, Copy, Debug)]
pub struct Temper {
    /// One rank or condition in so many is hard to meet; all others admit the highest value.
    pub harsh: usize,
    /// One node in so many has a PN.
    pub named: usize,
    /// The highest rank but 255.
    pub rank: u8,
}

/// Any temper, from policies that admit all to ones that admit hardly anything.
pub fn temper(random: &mut Random) -> Temper {
    Temper {
        harsh: random.pick(&[3, 10, 40, 400]),
        named: random.pick(&[1, 1, 2, 8]),
        rank: random.pick(&[0, 1, 3, 254]),
    }
}

/// `count` policies for `schema`.
pub fn policies(random: &mut Random, schema: &[Node], count: usize) -> Vec<Policy> {
    let temper = temper(random);
    (0..count).map(|_| policy(random, schema, temper)).collect()
}

fn policy(random: &mut Random, schema: &[Node], temper: Temper) -> Policy {
    let (p, q) = (near_day(random), near_day(random));
    let (first, last) = random.pick(&[
        (p.min(q), p.max(q)),
        (p.min(q), p.max(q)),
        (0, u16::MAX),
        (0, p),
        (p, u16::MAX),
        (0, 0),
        (u16::MAX, u16::MAX),
    ]);
    let mut nodes = Vec::new();
    for (number, node) in schema.iter().enumerate() {
        if random.once_in(temper.named) {
            nodes.push(policy_node(random, number as u8, node, temper));
        }
    }
    Policy { first, last, nodes }
}

fn near_day(random: &mut Random) -> u16 {
    DAY - 2 + random.below(5) as u16
}

/// A PN for node `number`.
pub fn policy_node(random: &mut Random, number: u8, node: &Node, temper: Temper) -> PolicyNode {
    PolicyNode {
        node: number,
        ranks: (0..node.ranks()).map(|_| rank(random, temper)).collect(),
        conditions: node.variables.iter().map(|v| condition(random, *v, temper)).collect(),
    }
}

fn rank(random: &mut Random, temper: Temper) -> u8 {
    if random.once_in(temper.harsh) { 255 } else { random.within(0..=temper.rank.into()) as u8 }
}

fn condition(random: &mut Random, variable: Variable, temper: Temper) -> Condition {
    match variable {
        Variable::Number(lo, hi) => {
            let (lo, hi) = range(random, lo, hi, temper);
            Condition::Range(lo, hi)
        }
        Variable::Listed(size) => {
            let (highest, any) = (1 << (size - 1), random.number() as u32);
            let harsh = random.once_in(temper.harsh);
            let mask = if harsh { random.pick(&[0, 1, highest, any]) } else { any | highest };
            Condition::Mask(mask & variable.full_mask())
        }
    }
}

/// A range for a number of the domain `lo` to `hi`; unless harsh, it admits `hi`.
fn range(random: &mut Random, lo: i32, hi: i32, temper: Temper) -> (i32, i32) {
    let inside = random.within(lo.into()..=hi.into()) as i32;
    let any = random.number() as i32;
    if random.once_in(temper.harsh) {
        return random.pick(&[(hi, lo), (1, 0), (any, inside), (inside, inside), (hi, i32::MAX)]);
    }
    let near = lo.saturating_add(random.below(3) as i32).min(hi);
    random.pick(&[(i32::MIN, i32::MAX), (lo, hi), (near, hi), (near, i32::MAX), (i32::MIN, hi)])
}

/// A pass near the policies' days, now and then at the ends of what days can be or not a pass.
pub fn pass(random: &mut Random) -> (u16, u16) {
    let a = near_day(random);
    let two_days = (a, a + random.below(2) as u16);
    if random.below(12) > 0 {
        return two_days;
    }
    random.pick(&[
        (0, 0),
        (0, 1),
        (65_534, 65_535),
        (65_535, 65_535),
        (65_535, 0),
        (a, a - 1),
        (a, a + 2),
        (0, 65_535),
    ])
}

/// A choice for each node of `schema`, whether it will be reached or not.
pub fn choices(random: &mut Random, schema: &[Node]) -> Vec<u8> {
    let choice = |node: &Node| {
        if node.chooses() { random.pick(&node.successors) } else { 255 }
    };
    schema.iter().map(choice).collect()
}

/// The instance that `choices` make, with values of their domains.
pub fn instance(random: &mut Random, schema: &[Node], choices: &[u8]) -> Vec<Entry> {
    let mut reached = vec![false; schema.len()];
    reached[0] = true;
    let mut entries = Vec::new();
    for (number, node) in schema.iter().enumerate() {
        if !reached[number] {
            continue;
        }
        let choice = choices[number];
        let next = if node.chooses() { vec![choice] } else { node.successors.clone() };
        for successor in next {
            reached[usize::from(successor)] = true;
        }
        let values = node.variables.iter().map(|variable| value(random, *variable)).collect();
        entries.push(Entry { node: number as u8, choice, values });
    }
    entries
}

fn value(random: &mut Random, variable: Variable) -> Value {
    match variable {
        Variable::Number(lo, hi) => {
            let inside = random.within(lo.into()..=hi.into()) as i32;
            Value::Number(random.pick(&[lo, hi, inside]))
        }
        Variable::Listed(size) => {
            let inside = random.byte() % size;
            Value::Listed(random.pick(&[0, size - 1, inside]))
        }
    }
}
