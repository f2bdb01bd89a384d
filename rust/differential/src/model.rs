//! The three files as data, and their bytes as 01's 'The three files' has them.

/// A variable of a schema node.
#[derive(Clone, Copy, Debug, PartialEq, Eq)]
pub enum Variable {
    /// Type 0, from the first to the second value.
    Number(i32, i32),
    /// Type 1, of this size.
    Listed(u8),
}

impl Variable {
    /// The mask that admits all values of a listed variable, and of a number none.
    pub fn full_mask(self) -> u32 {
        match self {
            Variable::Number(..) => 0,
            Variable::Listed(size) => u32::MAX >> (32 - size),
        }
    }
}

/// One SN.
#[derive(Clone, Debug)]
pub struct Node {
    /// 0 = all, 1 = one.
    pub kind: u8,
    /// The successors, ascending.
    pub successors: Vec<u8>,
    /// The variables.
    pub variables: Vec<Variable>,
}

impl Node {
    /// Whether an instance's entry has a choice to make.
    pub fn chooses(&self) -> bool {
        self.ranks() > 0
    }

    /// How many ranks a PN has for the node.
    pub fn ranks(&self) -> usize {
        if self.kind == 1 { self.successors.len() } else { 0 }
    }
}

/// A policy's condition on a variable.
#[derive(Clone, Copy, Debug)]
pub enum Condition {
    /// On a number.
    Range(i32, i32),
    /// On a listed variable.
    Mask(u32),
}

/// One PN.
#[derive(Clone, Debug)]
pub struct PolicyNode {
    /// The node it names.
    pub node: u8,
    /// One rank for each successor of a kind 1 node.
    pub ranks: Vec<u8>,
    /// One condition for each variable.
    pub conditions: Vec<Condition>,
}

impl PolicyNode {
    /// A PN for node `number` that says no more than none would.
    pub fn admitting_all(number: u8, node: &Node) -> Self {
        let condition = |variable: &Variable| match variable {
            Variable::Number(..) => Condition::Range(i32::MIN, i32::MAX),
            Variable::Listed(_) => Condition::Mask(variable.full_mask()),
        };
        PolicyNode {
            node: number,
            ranks: vec![0; node.ranks()],
            conditions: node.variables.iter().map(condition).collect(),
        }
    }
}

/// One PH and its PNs.
#[derive(Clone, Debug)]
pub struct Policy {
    /// The first day.
    pub first: u16,
    /// The last day.
    pub last: u16,
    /// The PNs, ascending.
    pub nodes: Vec<PolicyNode>,
}

/// A value of an instance.
#[derive(Clone, Copy, Debug, PartialEq, Eq)]
pub enum Value {
    /// Of a number.
    Number(i32),
    /// Of a listed variable.
    Listed(u8),
}

/// One IN.
#[derive(Clone, Debug, PartialEq, Eq)]
pub struct Entry {
    /// The reached node.
    pub node: u8,
    /// The chosen successor or 255.
    pub choice: u8,
    /// One value for each variable.
    pub values: Vec<Value>,
}

/// A file and where its records begin.
#[derive(Clone, Debug, Default)]
pub struct File {
    /// The bytes.
    pub bytes: Vec<u8>,
    /// The offset of each mark.
    pub records: Vec<usize>,
}

impl File {
    fn record(&mut self, mark: &[u8; 2]) {
        self.records.push(self.bytes.len());
        self.put(mark);
    }

    fn put(&mut self, field: &[u8]) {
        self.bytes.extend_from_slice(field);
    }
}

/// The schema file of `nodes`.
pub fn schema_file(nodes: &[Node]) -> File {
    let mut file = File::default();
    file.record(b"SH");
    file.put(&[nodes.len() as u8]);
    for node in nodes {
        file.record(b"SN");
        file.put(&[node.kind, node.successors.len() as u8]);
        file.put(&node.successors);
        file.put(&[node.variables.len() as u8]);
        for variable in &node.variables {
            match variable {
                Variable::Number(lo, hi) => {
                    file.put(&[0]);
                    file.put(&lo.to_be_bytes());
                    file.put(&hi.to_be_bytes());
                }
                Variable::Listed(size) => file.put(&[1, *size]),
            }
        }
    }
    file
}

/// The policy file of `policies`.
pub fn policy_file(policies: &[Policy]) -> File {
    let mut file = File::default();
    for policy in policies {
        file.record(b"PH");
        file.put(&policy.first.to_be_bytes());
        file.put(&policy.last.to_be_bytes());
        file.put(&[policy.nodes.len() as u8]);
        for node in &policy.nodes {
            file.record(b"PN");
            file.put(&[node.node]);
            file.put(&node.ranks);
            for condition in &node.conditions {
                match condition {
                    Condition::Range(lo, hi) => {
                        file.put(&lo.to_be_bytes());
                        file.put(&hi.to_be_bytes());
                    }
                    Condition::Mask(mask) => file.put(&mask.to_be_bytes()),
                }
            }
        }
    }
    file
}

/// The instance file of `entries`.
pub fn instance_file(entries: &[Entry]) -> File {
    let mut file = File::default();
    file.record(b"IH");
    file.put(&[entries.len() as u8]);
    for entry in entries {
        file.record(b"IN");
        file.put(&[entry.node, entry.choice]);
        for value in &entry.values {
            match value {
                Value::Number(value) => file.put(&value.to_be_bytes()),
                Value::Listed(value) => file.put(&[*value]),
            }
        }
    }
    file
}
