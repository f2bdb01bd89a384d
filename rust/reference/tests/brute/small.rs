//! Small schemas, all their instances one by one.

use std::collections::BTreeSet;

use differential::model::{
    Condition, Entry, Node, Policy, PolicyNode, Value, Variable, instance_file,
};
use differential::mutate;
use differential::random::Random;
use reference::{check, compare, copy, reconcile};

use crate::problem::Problem;

const PROBLEMS: usize = 6_000;
const DAY: u16 = 100;

/// A problem with few instances.
fn problem(random: &mut Random) -> Problem {
    let count = 1 + random.below(10);
    let schema: Vec<Node> = (0..count).map(|number| node(random, number, count)).collect();
    let policies = random.pick(&[0, 1, 2, 3, 4, 16]);
    let policies = (0..policies).map(|_| policy(random, &schema)).collect();
    let a = DAY + random.below(2) as u16;
    let pass = (a, a + random.below(2) as u16);
    Problem::new(schema, policies, pass)
}

fn node(random: &mut Random, number: usize, count: usize) -> Node {
    let one_in = random.pick(&[1, 2, 3]);
    let above = (number + 1..count).map(|next| next as u8);
    let successors: Vec<u8> = above.filter(|_| random.once_in(one_in)).take(8).collect();
    let kind = if successors.is_empty() { 1 } else { random.below(2) as u8 };
    let variables = (0..random.pick(&[0, 0, 1, 2])).map(|_| variable(random)).collect();
    Node { kind, successors, variables }
}

/// A variable of at most three values.
fn variable(random: &mut Random) -> Variable {
    let more = random.below(3) as i32;
    let lo = random.pick(&[i32::MIN, -2, -1, 0, i32::MAX - 2]);
    random.pick(&[Variable::Number(lo, lo + more), Variable::Listed(1 + more as u8)])
}

fn policy(random: &mut Random, schema: &[Node]) -> Policy {
    let (p, q) = (DAY - 1 + random.below(5) as u16, DAY - 1 + random.below(5) as u16);
    let mut nodes = Vec::new();
    for (number, node) in schema.iter().enumerate() {
        if random.once_in(2) {
            let rank = |_| random.pick(&[0, 1, 1, 2, 254, 255]);
            let ranks = (0..node.ranks()).map(rank).collect();
            let conditions = node.variables.iter().map(|v| condition(random, *v)).collect();
            nodes.push(PolicyNode { node: number as u8, ranks, conditions });
        }
    }
    Policy { first: p.min(q), last: p.max(q), nodes }
}

fn condition(random: &mut Random, variable: Variable) -> Condition {
    match variable {
        Variable::Number(lo, hi) => {
            let bounds = [lo.saturating_sub(1), lo, lo, hi, hi, hi.saturating_add(1)];
            Condition::Range(random.pick(&bounds[..4]), random.pick(&bounds[2..]))
        }
        Variable::Listed(_) => Condition::Mask(random.number() as u32 & variable.full_mask()),
    }
}

/// Problems with all their instances.
fn problems(seed: u64) -> impl Iterator<Item = (Problem, Vec<Vec<Entry>>)> {
    let mut random = Random::new(seed);
    (0..PROBLEMS)
        .map(move |_| problem(&mut random))
        .map(|problem| {
            let instances = problem.instances();
            (problem, instances)
        })
        .filter(|(_, instances)| !instances.is_empty())
}

/// Demand 3, sentence by sentence.
#[test]
fn the_reconciler_is_right() {
    let (mut refused, mut written) = (0, 0);
    for (problem, instances) in problems(1) {
        let rivals: Vec<_> = instances.iter().filter(|rival| problem.meets(rival)).collect();
        let mut out = [0; 1_283];
        let (a, b) = problem.pass;
        let answer = reconcile(&problem.schema_bytes, &problem.policy_bytes, a, b, &mut out);
        if rivals.is_empty() {
            assert_eq!((answer.number, answer.file, answer.offset, answer.value), (13, 0, 0, 0));
            refused += 1;
            continue;
        }
        assert_eq!((answer.number, answer.file, answer.offset), (0, 0, 0));
        let file = &out[..answer.value as usize];
        let ours = instances.iter().find(|instance| instance_file(instance).bytes == file);
        demand_best(&problem, ours.expect("an instance is written"), &rivals);
        written += 1;
    }
    assert!(refused > 1_000 && written > 2_000, "{refused} refused, {written} written");
}

fn demand_best(problem: &Problem, ours: &[Entry], rivals: &[&Vec<Entry>]) {
    assert!(problem.meets(ours));
    for rival in rivals {
        assert!(problem.at_least_as_good(ours, rival, 0));
        let choices = |instance: &[Entry]| -> Vec<(u8, u8)> {
            instance.iter().map(|entry| (entry.node, entry.choice)).collect()
        };
        if choices(ours) == choices(rival) {
            for (entry, other) in ours.iter().zip(rival.iter()) {
                assert!(entry.values.iter().zip(&other.values).all(|(v, w)| not_above(*v, *w)));
            }
        }
    }
}

fn not_above(value: Value, other: Value) -> bool {
    match (value, other) {
        (Value::Number(value), Value::Number(other)) => value <= other,
        (Value::Listed(value), Value::Listed(other)) => value <= other,
        _ => panic!("values of one variable are of one type"),
    }
}

/// 'The checker accepts an instance file exactly when it encodes an instance that meets every policy
/// in force', and its refusal is at the first forbidden field.
#[test]
fn the_checker_is_right() {
    let (mut accepted, mut forbidden) = (0, 0);
    for (problem, instances) in problems(2) {
        for instance in &instances {
            let (a, b) = problem.pass;
            let file = instance_file(instance).bytes;
            let answer = check(&problem.schema_bytes, &problem.policy_bytes, a, b, &file);
            let expected = match problem.first_forbidden(instance) {
                Some(offset) => (18, 4, offset, 0),
                None => (0, 0, 0, 0),
            };
            assert_eq!((answer.number, answer.file, answer.offset, answer.value), expected);
            accepted += usize::from(expected.0 == 0);
            forbidden += usize::from(expected.0 == 18);
        }
    }
    assert!(accepted > 10_000 && forbidden > 10_000, "{accepted} accepted, {forbidden} forbidden");
}

/// The verdict is that of 'at least as good' each way.
#[test]
fn the_comparison_is_right() {
    let mut verdicts = [0; 4];
    let mut random = Random::new(3);
    for (problem, instances) in problems(3) {
        for first in &instances {
            let second = random.pick(&instances);
            let (a, b) = problem.pass;
            let [i, j] = [first, &second].map(|instance| instance_file(instance).bytes);
            let answer = compare(&problem.schema_bytes, &problem.policy_bytes, a, b, &i, &j);
            let verdict = match (
                problem.at_least_as_good(first, &second, 0),
                problem.at_least_as_good(&second, first, 0),
            ) {
                (true, true) => 0,
                (true, false) => 1,
                (false, true) => 2,
                (false, false) => 3,
            };
            assert_eq!(
                (answer.number, answer.file, answer.offset, answer.value),
                (0, 0, 0, verdict)
            );
            verdicts[verdict as usize] += 1;
        }
    }
    assert!(verdicts.iter().all(|count| *count > 150), "{verdicts:?}");
}

/// A file is read, and written as it was, exactly when it encodes an instance.
#[test]
fn the_instance_reader_is_right() {
    let (mut read, mut refused) = (0, 0);
    let mut random = Random::new(4);
    for (problem, instances) in problems(4).take(200) {
        let files: BTreeSet<Vec<u8>> =
            instances.iter().map(|instance| instance_file(instance).bytes).collect();
        let file = instance_file(&random.pick(&instances));
        let mut demand = |bytes: &[u8]| {
            let mut out = [0; 1_283];
            let answer = copy(&problem.schema_bytes, bytes, &mut out);
            assert_eq!(answer.number == 0, files.contains(bytes), "{bytes:x?}");
            if answer.number == 0 {
                assert_eq!(&out[..answer.value as usize], bytes);
                read += 1;
            } else {
                assert_eq!(out, [0; 1_283]);
                refused += 1;
            }
        };
        demand(&file.bytes);
        mutate::every_byte(&file.bytes, &mut demand);
        mutate::variants(&mut random, &file, 100, &mut demand);
    }
    assert!(read > 1_000 && refused > 100_000, "{read} read, {refused} refused");
}
