//! What one call takes, as data and as files.

use reference::cases::{Call, Input};

use crate::generate;
use crate::model::{
    Condition, Entry, File, Node, Policy, PolicyNode, Value, Variable, instance_file, policy_file,
    schema_file,
};
use crate::random::Random;
use crate::shapes::{self, Shape};

/// A schema, policies, a pass and two instances.
#[derive(Clone, Debug)]
pub struct Scenario {
    /// The schema's nodes.
    pub schema: Vec<Node>,
    /// The policies.
    pub policies: Vec<Policy>,
    /// The first and last day.
    pub pass: (u16, u16),
    /// The first instance.
    pub first: Vec<Entry>,
    /// The second instance.
    pub second: Vec<Entry>,
}

impl Scenario {
    /// A scenario of `count` nodes.
    pub fn random(random: &mut Random, count: usize) -> Self {
        let schema = match random.below(8) {
            0 => shapes::chain(random, count),
            1 => shapes::diamonds(random, count),
            2 => shapes::rails(random, count),
            _ => generate::schema(random, count),
        };
        let number = random.pick(&[0, 1, 2, 3, 5, 16, 16]);
        let policies = generate::policies(random, &schema, number);
        let pass = generate::pass(random);
        Scenario::of(random, Shape { schema, policies, pass })
    }

    /// A scenario with the schema, policies and pass of `shape`: the first instance is the
    /// reconciled one or any other, the second differs from it in all, in one choice or in values.
    pub fn of(random: &mut Random, shape: Shape) -> Self {
        let Shape { schema, policies, pass } = shape;
        let choices = generate::choices(random, &schema);
        let mut scenario = Scenario { schema, policies, pass, first: vec![], second: vec![] };
        scenario.first = generate::instance(random, &scenario.schema, &choices);
        if random.once_in(2) {
            scenario.reconcile_first();
        }
        scenario.second = scenario.rival(random);
        scenario
    }

    /// Makes the first instance the reconciled one, if there is one.
    fn reconcile_first(&mut self) {
        let mut out = [0; 1_283];
        let answer = Call::Reconcile.answer(&self.files().input(), &mut out);
        if answer.number == 0 {
            self.first = entries(&self.schema, &out[..answer.value as usize]);
        }
    }

    fn rival(&self, random: &mut Random) -> Vec<Entry> {
        let mut choices = generate::choices(random, &self.schema);
        if random.once_in(4) {
            return generate::instance(random, &self.schema, &choices);
        }
        for entry in &self.first {
            choices[usize::from(entry.node)] = entry.choice;
        }
        let changed = random.pick(&self.first).node;
        let node = &self.schema[usize::from(changed)];
        if node.chooses() {
            choices[usize::from(changed)] = random.pick(&node.successors);
        }
        generate::instance(random, &self.schema, &choices)
    }

    /// The files.
    pub fn files(&self) -> Files {
        Files {
            schema: schema_file(&self.schema),
            policies: policy_file(&self.policies),
            pass: self.pass,
            first: instance_file(&self.first),
            second: instance_file(&self.second),
        }
    }

    /// The policies, of which the one at `policy` also forbids a field of the first instance.
    pub fn forbidding(&self, random: &mut Random, policy: usize) -> Vec<Policy> {
        let mut policies = self.policies.clone();
        let entry = random.pick(&self.first);
        let node = &self.schema[usize::from(entry.node)];
        let said = named(&mut policies[policy], entry.node, node);
        let chosen = node.successors.iter().position(|next| *next == entry.choice);
        let fields = entry.values.len() + usize::from(chosen.is_some());
        if fields == 0 {
            return policies;
        }
        let field = random.below(fields);
        match chosen.filter(|_| field == entry.values.len()) {
            Some(index) => said.ranks[index] = 255,
            None => {
                let (value, variable) = (entry.values[field], node.variables[field]);
                said.conditions[field] = excluding(random, value, variable);
            }
        }
        policies
    }
}

/// The PN of `policy` for node `number`, which it gets if it has none.
fn named<'a>(policy: &'a mut Policy, number: u8, node: &Node) -> &'a mut PolicyNode {
    let place = policy.nodes.partition_point(|said| said.node < number);
    if policy.nodes.get(place).is_none_or(|said| said.node != number) {
        policy.nodes.insert(place, PolicyNode::admitting_all(number, node));
    }
    &mut policy.nodes[place]
}

/// A condition that `value` does not meet.
fn excluding(random: &mut Random, value: Value, variable: Variable) -> Condition {
    match (value, variable) {
        (Value::Number(value), _) => {
            let above = value.checked_add(1).map_or((1, 0), |above| (above, i32::MAX));
            let below = value.checked_sub(1).map_or((1, 0), |below| (i32::MIN, below));
            let (lo, hi) = random.pick(&[above, below, (1, 0)]);
            Condition::Range(lo, hi)
        }
        (Value::Listed(value), variable) => Condition::Mask(variable.full_mask() & !(1 << value)),
    }
}

/// The entries of an instance file of `schema` that has no breach.
fn entries(schema: &[Node], file: &[u8]) -> Vec<Entry> {
    let mut rest = &file[3..];
    let mut take = |count| {
        let (taken, after) = rest.split_at(count);
        rest = after;
        taken
    };
    (0..file[2])
        .map(|_| {
            let head = take(4);
            let values =
                schema[usize::from(head[2])].variables.iter().map(|variable| match variable {
                    Variable::Number(..) => {
                        Value::Number(i32::from_be_bytes(take(4).try_into().expect("four bytes")))
                    }
                    Variable::Listed(_) => Value::Listed(take(1)[0]),
                });
            Entry { node: head[2], choice: head[3], values: values.collect() }
        })
        .collect()
}

/// The files of a scenario.
#[derive(Clone, Debug)]
pub struct Files {
    /// File 1.
    pub schema: File,
    /// File 2.
    pub policies: File,
    /// The pass.
    pub pass: (u16, u16),
    /// File 4.
    pub first: File,
    /// File 5.
    pub second: File,
}

/// One of the files.
#[derive(Clone, Copy, Debug, PartialEq, Eq)]
pub enum Which {
    /// File 1.
    Schema,
    /// File 2.
    Policies,
    /// File 4.
    First,
    /// File 5.
    Second,
}

/// The files that `call` takes.
pub fn taken(call: Call) -> &'static [Which] {
    match call {
        Call::Copy | Call::Sheet => &[Which::Schema, Which::First],
        Call::Reconcile => &[Which::Schema, Which::Policies],
        Call::Check => &[Which::Schema, Which::Policies, Which::First],
        Call::Compare => &[Which::Schema, Which::Policies, Which::First, Which::Second],
    }
}

impl Files {
    /// All files as they are.
    pub fn input(&self) -> Input<'_> {
        Input {
            schema: &self.schema.bytes,
            policies: &self.policies.bytes,
            pass: self.pass,
            first: &self.first.bytes,
            second: &self.second.bytes,
        }
    }

    /// The files with `bytes` in the place of one.
    pub fn with<'a>(&'a self, which: Which, bytes: &'a [u8]) -> Input<'a> {
        let mut input = self.input();
        match which {
            Which::Schema => input.schema = bytes,
            Which::Policies => input.policies = bytes,
            Which::First => input.first = bytes,
            Which::Second => input.second = bytes,
        }
        input
    }

    /// One of the files.
    pub fn file(&self, which: Which) -> &File {
        match which {
            Which::Schema => &self.schema,
            Which::Policies => &self.policies,
            Which::First => &self.first,
            Which::Second => &self.second,
        }
    }
}
