//! Schemas of every size against a plain engine on data.

use differential::model::{Condition, Entry, Value, Variable, instance_file};
use differential::random::Random;
use differential::scenario::Scenario;
use differential::shapes;
use reference::reconcile;

use crate::problem::{Problem, admits, reaches};

/// The best entry of each node that can be met.
fn best_entries(problem: &Problem) -> Vec<Option<Entry>> {
    let mut best = vec![None; problem.schema.len()];
    for number in (0..problem.schema.len() as u8).rev() {
        let node = problem.node(number);
        let can_be_met = |next: &u8| best[usize::from(*next)].is_some();
        let choice = if node.chooses() {
            best_choice(problem, number, can_be_met)
        } else {
            node.successors.iter().all(can_be_met).then_some(255)
        };
        let values: Option<Vec<Value>> =
            (0..node.variables.len()).map(|index| least_value(problem, number, index)).collect();
        let entry = |(choice, values)| Entry { node: number, choice, values };
        best[usize::from(number)] = choice.zip(values).map(entry);
    }
    best
}

/// The allowed successor that can be met and that no other such is better than.
fn best_choice(problem: &Problem, number: u8, can_be_met: impl Fn(&u8) -> bool) -> Option<u8> {
    let successors = problem.node(number).successors.iter().copied().enumerate();
    let allowed = |index: usize| problem.said_of(number).all(|said| said.ranks[index] != 255);
    successors
        .filter(|(index, next)| allowed(*index) && can_be_met(next))
        .map(|(_, next)| next)
        .reduce(|p, q| if problem.is_better(number, q, p) { q } else { p })
}

/// The least value of the domain that all conditions admit; of a number it is a lower bound.
fn least_value(problem: &Problem, number: u8, index: usize) -> Option<Value> {
    let conditions: Vec<Condition> =
        problem.said_of(number).map(|said| said.conditions[index]).collect();
    let admitted = |value: &Value| conditions.iter().all(|condition| admits(*condition, *value));
    match problem.node(number).variables[index] {
        Variable::Listed(size) => (0..size).map(Value::Listed).find(admitted),
        Variable::Number(lo, hi) => {
            let bounds = conditions.iter().filter_map(|condition| match condition {
                Condition::Range(bound, _) => Some(*bound),
                Condition::Mask(_) => None,
            });
            let mut bounds: Vec<i32> =
                bounds.chain([lo]).filter(|bound| lo <= *bound && *bound <= hi).collect();
            bounds.sort();
            bounds.into_iter().map(Value::Number).find(admitted)
        }
    }
}

/// The file of the instance that 01 fixes, if there is one.
fn expected(problem: &Problem) -> Option<Vec<u8>> {
    let best = best_entries(problem);
    let mut reached = vec![0];
    let mut entries = Vec::new();
    while let Some(number) = reached.iter().min().copied() {
        reached.retain(|other| *other != number);
        let entry = best[usize::from(number)].clone()?;
        reached.extend(reaches(problem.node(number), entry.choice));
        entries.push(entry);
    }
    Some(instance_file(&entries).bytes)
}

/// Demands that the reconciler writes the expected instance; says whether there is one.
fn demand_expected(problem: &Problem) -> bool {
    let mut out = [0; 1_283];
    let (a, b) = problem.pass;
    let answer = reconcile(&problem.schema_bytes, &problem.policy_bytes, a, b, &mut out);
    let expected = expected(problem);
    assert_eq!(answer.number, if expected.is_some() { 0 } else { 13 });
    assert_eq!(out[..answer.value as usize], expected.as_deref().unwrap_or_default()[..]);
    expected.is_some()
}

#[test]
fn the_reconciler_is_right_at_every_size() {
    let random = &mut Random::new(5);
    let (mut refused, mut written) = (0, 0);
    for round in 0..1_280 {
        let mut scenario = Scenario::random(random, round % 64 + 1);
        scenario.pass.1 = scenario.pass.0;
        let problem = Problem::new(scenario.schema, scenario.policies, scenario.pass);
        if demand_expected(&problem) { written += 1 } else { refused += 1 }
    }
    assert!(refused > 200 && written > 400, "{refused} refused, {written} written");
}

#[test]
fn the_reconciler_is_right_on_fixed_shapes() {
    let random = &mut Random::new(6);
    for shape in (0..20).flat_map(|_| shapes::all(random)) {
        let problem = Problem::new(shape.schema, shape.policies, shape.pass);
        assert!(demand_expected(&problem));
    }
}
