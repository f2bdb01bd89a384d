//! 01's definitions on data, in its own words and with no thought of time.

use std::collections::BTreeSet;

use differential::model::{
    Condition, Entry, Node, Policy, PolicyNode, Value, Variable, policy_file, schema_file,
};

/// The most instances to go through.
const MOST: usize = 400;

/// A schema, policies and a pass.
pub struct Problem {
    pub schema: Vec<Node>,
    policies: Vec<Policy>,
    pub pass: (u16, u16),
    pub schema_bytes: Vec<u8>,
    pub policy_bytes: Vec<u8>,
}

impl Problem {
    pub fn new(schema: Vec<Node>, policies: Vec<Policy>, pass: (u16, u16)) -> Self {
        let schema_bytes = schema_file(&schema).bytes;
        let policy_bytes = policy_file(&policies).bytes;
        Problem { schema, policies, pass, schema_bytes, policy_bytes }
    }

    pub fn node(&self, number: u8) -> &Node {
        &self.schema[usize::from(number)]
    }

    /// The policies in force on either day of the pass.
    pub fn in_force(&self) -> Vec<&Policy> {
        let (a, b) = self.pass;
        let on = |policy: &Policy, day| policy.first <= day && day <= policy.last;
        self.policies.iter().filter(|policy| on(policy, a) || on(policy, b)).collect()
    }

    /// All instances of the schema, or none if they are too many to go through.
    pub fn instances(&self) -> Vec<Vec<Entry>> {
        let mut all = Vec::new();
        self.extend(&BTreeSet::from([0]), &mut Vec::new(), &mut all);
        if all.len() > MOST { Vec::new() } else { all }
    }

    /// Adds to `all` every instance that begins with `entries`.
    fn extend(&self, reached: &BTreeSet<u8>, entries: &mut Vec<Entry>, all: &mut Vec<Vec<Entry>>) {
        let without = |number: &&u8| entries.iter().all(|entry| entry.node != **number);
        let Some(number) = reached.iter().find(without).copied() else {
            all.push(entries.clone());
            return;
        };
        let node = self.node(number);
        let choices = if node.chooses() { node.successors.clone() } else { vec![255] };
        for choice in choices {
            let mut further = reached.clone();
            further.extend(reaches(node, choice));
            for values in value_lists(&node.variables) {
                if all.len() <= MOST {
                    entries.push(Entry { node: number, choice, values });
                    self.extend(&further, entries, all);
                    entries.pop();
                }
            }
        }
    }

    /// The offset of the first field of `instance` that a policy in force forbids.
    pub fn first_forbidden(&self, instance: &[Entry]) -> Option<u64> {
        let mut offset = 3;
        for entry in instance {
            let node = self.node(entry.node);
            let said = || self.said_of(entry.node);
            let index = node.successors.iter().position(|next| *next == entry.choice);
            if said().any(|said| index.is_some_and(|index| said.ranks[index] == 255)) {
                return Some(offset + 3);
            }
            offset += 4;
            for (index, value) in entry.values.iter().enumerate() {
                if said().any(|said| !admits(said.conditions[index], *value)) {
                    return Some(offset);
                }
                offset += match value {
                    Value::Number(_) => 4,
                    Value::Listed(_) => 1,
                };
            }
        }
        None
    }

    /// What the policies in force that name the node say of it, in file order.
    pub fn said_of(&self, number: u8) -> impl Iterator<Item = &PolicyNode> {
        self.in_force().into_iter().filter_map(move |policy| said_of(policy, number))
    }

    pub fn meets(&self, instance: &[Entry]) -> bool {
        self.first_forbidden(instance).is_none()
    }

    /// 'The first policy in force, in file order, whose ranks differ decides.'
    pub fn is_better(&self, number: u8, p: u8, q: u8) -> bool {
        let rank = |policy: &Policy, successor: u8| {
            let index = self.node(number).successors.iter().position(|next| *next == successor);
            let index = index.expect("a choice is a successor");
            said_of(policy, number).map_or(0, |said| said.ranks[index])
        };
        let in_force = self.in_force();
        let decides = in_force.iter().find(|policy| rank(policy, p) != rank(policy, q));
        decides.map_or(p < q, |policy| rank(policy, p) < rank(policy, q))
    }

    /// 'Instance I is at least as good as J at a node that both reach.'
    pub fn at_least_as_good(&self, i: &[Entry], j: &[Entry], number: u8) -> bool {
        let node = self.node(number);
        let (p, q) = (choice(i, number), choice(j, number));
        if !node.chooses() {
            node.successors.iter().all(|next| self.at_least_as_good(i, j, *next))
        } else if p == q {
            self.at_least_as_good(i, j, p)
        } else {
            self.is_better(number, p, q)
        }
    }
}

fn said_of(policy: &Policy, number: u8) -> Option<&PolicyNode> {
    policy.nodes.iter().find(|said| said.node == number)
}

pub fn admits(condition: Condition, value: Value) -> bool {
    match (condition, value) {
        (Condition::Range(lo, hi), Value::Number(value)) => lo <= value && value <= hi,
        (Condition::Mask(mask), Value::Listed(value)) => mask & 1 << value != 0,
        _ => panic!("a condition of another type"),
    }
}

fn choice(instance: &[Entry], number: u8) -> u8 {
    instance.iter().find(|entry| entry.node == number).expect("both reach the node").choice
}

pub fn reaches(node: &Node, choice: u8) -> Vec<u8> {
    if node.chooses() { vec![choice] } else { node.successors.clone() }
}

/// All lists of values of their domains.
fn value_lists(variables: &[Variable]) -> Vec<Vec<Value>> {
    let mut lists = vec![Vec::new()];
    for variable in variables {
        let values: Vec<Value> = match *variable {
            Variable::Number(lo, hi) => (lo..=hi).map(Value::Number).collect(),
            Variable::Listed(size) => (0..size).map(Value::Listed).collect(),
        };
        let with = |list: &Vec<Value>, value: &Value| [list.as_slice(), &[*value]].concat();
        lists = lists
            .iter()
            .flat_map(|list| values.iter().map(|value| with(list, value)).collect::<Vec<_>>())
            .collect();
    }
    lists
}
