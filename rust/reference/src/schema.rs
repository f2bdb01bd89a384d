//! 01, 'Schema'.

use crate::fields::{Breach, Fields, field_at};

/// The most variables of a node.
pub const VARIABLES: usize = 4;
/// The choice of a node that has none to make.
pub const NO_CHOICE: u8 = 255;

/// A variable's type.
#[derive(Clone, Copy, Debug, PartialEq, Eq)]
pub enum Variable {
    /// Type 0; its bounds stand in the schema file at this place.
    Number(u16),
    /// Type 1, of this size.
    Listed(u8),
}

impl Variable {
    /// The bytes of its condition in a PN.
    #[inline(always)]
    pub fn condition_width(self) -> u8 {
        match self {
            Variable::Number(_) => 8,
            Variable::Listed(_) => 4,
        }
    }

    /// The bytes of its value in an IN.
    #[inline(always)]
    pub fn value_width(self) -> u8 {
        match self {
            Variable::Number(_) => 4,
            Variable::Listed(_) => 1,
        }
    }
}

/// The values from `lo` to `hi`, none if `lo` is above `hi`.
#[derive(Clone, Copy, Debug, PartialEq, Eq)]
pub struct Range {
    /// `lo` in the high half and anything in the low half.
    above: i64,
    hi: i32,
}

impl Range {
    /// The range of two bounds as a file has them.
    #[inline(always)]
    pub fn from_be_bytes(bounds: [u8; 8]) -> Self {
        let above = i64::from_be_bytes(bounds);
        Range { above, hi: above as i32 }
    }

    #[inline(always)]
    fn lo(self) -> i32 {
        (self.above >> 32) as i32
    }

    /// Whether `value` lies in the range.
    pub fn contains(self, value: i32) -> bool {
        self.lo() <= value && value <= self.hi
    }

    /// The least value, if there is any.
    #[inline(always)]
    pub fn least(self) -> Option<i32> {
        (self.lo() <= self.hi).then_some(self.lo())
    }

    /// The values of both ranges; the low half of `above` does not change which `lo` is greater.
    #[inline(always)]
    pub fn and(self, other: Range) -> Self {
        Range { above: self.above.max(other.above), hi: self.hi.min(other.hi) }
    }
}

/// The mask that admits all values of a listed variable of this size.
#[inline(always)]
pub fn full_mask(size: u8) -> u32 {
    u32::MAX >> (32 - u32::from(size))
}

/// One SN; the successors' numbers and the numbers' bounds stay in the file.
#[derive(Clone, Copy, Debug)]
pub struct Node {
    /// The successors as a set of node numbers.
    pub successors: u64,
    variables: [Variable; VARIABLES],
    /// Where the first successor stands in the file.
    place: u16,
    ranks: u8,
    variable_count: u8,
    has_listed: bool,
    policy_width: u8,
    entry_width: u8,
}

impl Node {
    /// A row of the table before it is read.
    pub const UNREAD: Node = Node {
        successors: 0,
        variables: [Variable::Number(0); VARIABLES],
        place: 0,
        ranks: 0,
        variable_count: 0,
        has_listed: false,
        policy_width: 0,
        entry_width: 0,
    };

    /// The variables in turn.
    #[inline(always)]
    pub fn variables(&self) -> &[Variable] {
        &self.variables[..usize::from(self.variable_count)]
    }

    /// Whether one of the variables is listed.
    #[inline(always)]
    pub fn has_listed(&self) -> bool {
        self.has_listed
    }

    /// Whether the node has a choice to make: kind 1 with successors.
    #[inline(always)]
    pub fn chooses(&self) -> bool {
        self.ranks > 0
    }

    /// How many ranks a PN has for this node: one for each successor of kind 1.
    #[inline(always)]
    pub fn ranks(&self) -> u8 {
        self.ranks
    }

    /// The bytes of the ranks and conditions in a PN for this node.
    #[inline(always)]
    pub fn policy_width(&self) -> usize {
        usize::from(self.policy_width)
    }

    /// The bytes of an IN for this node.
    #[inline(always)]
    pub fn entry_width(&self) -> usize {
        usize::from(self.entry_width)
    }

    /// Whether `choice` is as an instance must have it.
    pub fn is_choice(&self, choice: u8) -> bool {
        if self.chooses() {
            choice < 64 && self.successors >> choice & 1 == 1
        } else {
            choice == NO_CHOICE
        }
    }

    /// The nodes that this node, if reached, reaches with `choice`.
    #[inline(always)]
    pub fn reaches(&self, choice: u8) -> u64 {
        if self.chooses() { 1 << choice } else { self.successors }
    }

    /// The place of the successor `number` among the successors.
    pub fn index_of(&self, number: u8) -> u8 {
        (self.successors & ((1 << number) - 1)).count_ones() as u8
    }
}

/// A schema file that was read.
#[derive(Clone, Copy, Debug)]
pub struct Schema<'a> {
    bytes: &'a [u8],
    nodes: &'a [Node],
}

impl<'a> Schema<'a> {
    /// How many rows the table for reading the file `bytes` needs at the most.
    #[inline(always)]
    pub fn rows(bytes: &[u8]) -> usize {
        bytes.get(2).map_or(0, |count| usize::from(*count).min(64))
    }

    /// Reads the file `bytes` into `table`, or gives its first breach.
    #[inline(always)]
    pub fn read(bytes: &'a [u8], table: &'a mut [Node]) -> Result<Self, Breach> {
        let mut fields = Fields::new(bytes);
        fields.mark(b"SH")?;
        let [count] = fields.judged(3, |[count]| (1..=64).contains(&count))?;
        let nodes = &mut table[..usize::from(count)];
        for (number, node) in nodes.iter_mut().enumerate() {
            *node = read_node(&mut fields, number as u8, count)?;
        }
        fields.end()?;
        Ok(Schema { bytes, nodes })
    }

    /// How many nodes there are.
    #[inline(always)]
    pub fn count(&self) -> usize {
        self.nodes.len()
    }

    /// The node of this number.
    #[inline(always)]
    pub fn node(&self, number: usize) -> &'a Node {
        &self.nodes[number]
    }

    /// The nodes, from 0 on.
    #[inline(always)]
    pub fn nodes(&self) -> &'a [Node] {
        self.nodes
    }

    /// The successor of `node` at `index`, ascending.
    #[inline(always)]
    pub fn successor(&self, node: &Node, index: u8) -> u8 {
        let [successor] = field_at(self.bytes, node.place, index);
        successor
    }

    /// The bounds of the number variable at `place`.
    #[inline(always)]
    pub fn bounds(&self, place: u16) -> Range {
        Range::from_be_bytes(field_at(self.bytes, place, 0))
    }
}

#[inline(always)]
fn read_node(fields: &mut Fields, number: u8, count: u8) -> Result<Node, Breach> {
    fields.mark(b"SN")?;
    let [kind] = fields.judged(4, |[kind]| kind <= 1)?;
    let [degree] = fields.judged(4, |[c]| c <= 8 && (c > 0 || kind == 1))?;
    let mut node = Node {
        place: fields.position() as u16,
        ranks: degree * kind,
        policy_width: degree * kind,
        entry_width: 4,
        ..Node::UNREAD
    };
    let mut previous = number;
    for _ in 0..degree {
        let [successor] = fields.judged(5, |[s]| previous < s && s < count)?;
        node.successors |= 1 << successor;
        previous = successor;
    }
    [node.variable_count] = fields.judged(6, |[v]| usize::from(v) <= VARIABLES)?;
    for index in 0..usize::from(node.variable_count) {
        let variable = read_variable(fields)?;
        node.variables[index] = variable;
        node.has_listed |= matches!(variable, Variable::Listed(_));
        node.policy_width += variable.condition_width();
        node.entry_width += variable.value_width();
    }
    Ok(node)
}

#[inline(always)]
fn read_variable(fields: &mut Fields) -> Result<Variable, Breach> {
    let [listed] = fields.judged(6, |[kind]| kind <= 1)?;
    if listed == 1 {
        let [size] = fields.judged(6, |[size]| (1..=32).contains(&size))?;
        return Ok(Variable::Listed(size));
    }
    let place = fields.position() as u16;
    let lo = i32::from_be_bytes(fields.field()?);
    fields.judged(6, |hi| lo <= i32::from_be_bytes(hi))?;
    Ok(Variable::Number(place))
}
