//! 01, 'Policies'.

use crate::fields::{Breach, Fields, field_at};
use crate::schema::{Node, Range, Schema, Variable, full_mask};

/// The most policies of a file.
pub const POLICIES: usize = 16;
/// The rank of a successor that is not allowed.
pub const NOT_ALLOWED: u8 = 255;

const MARK_AND_NODE: usize = 3;

/// The days of a PH.
#[derive(Clone, Copy, Debug, PartialEq, Eq)]
pub struct Days {
    /// The first day.
    pub first: u16,
    /// The last day.
    pub last: u16,
}

/// Where the ranks and conditions stand in the PNs that name one node, in file order.
#[derive(Clone, Copy, Debug)]
pub struct Places {
    list: [u16; POLICIES],
    count: u16,
}

impl Places {
    /// A row of the table before any PN is read.
    pub const NONE: Places = Places { list: [0; POLICIES], count: 0 };

    #[inline(always)]
    fn push(&mut self, place: usize) {
        self.list[usize::from(self.count)] = place as u16;
        self.count += 1;
    }
}

/// A policy file that was read, and where its chosen policies name each node.
#[derive(Clone, Copy, Debug)]
pub struct Policies<'a> {
    bytes: &'a [u8],
    named: &'a [Places],
}

impl<'a> Policies<'a> {
    /// Reads the file `bytes` for `schema`, or gives its first breach; `table` takes the PNs of
    /// those policies that are `chosen` by their days.
    #[inline(always)]
    pub fn read(
        schema: &Schema,
        bytes: &'a [u8],
        table: &'a mut [Places],
        chosen: impl Fn(Days) -> bool,
    ) -> Result<Self, Breach> {
        let mut fields = Fields::new(bytes);
        let mut count = 0;
        while !fields.at_end() {
            if count == POLICIES {
                return Err(fields.breach(8));
            }
            let (days, n) = read_head(&mut fields)?;
            let chosen = chosen(days);
            let mut ahead = Ahead { lowest: 0, nodes: schema.nodes().iter() };
            for _ in 0..n {
                let lowest = ahead.lowest;
                let good = good_policy_node(fields.rest(), schema, &mut ahead);
                let (number, width) = good.ok_or_else(|| first_breach(fields, schema, lowest))?;
                if chosen {
                    table[number].push(fields.position() + MARK_AND_NODE);
                }
                fields.record(width);
            }
            count += 1;
        }
        Ok(Policies { bytes, named: table })
    }

    /// The PNs of the chosen policies that name node `number`.
    #[inline(always)]
    pub fn naming(&self, number: usize) -> Named<'a> {
        let places = &self.named[number];
        Named { bytes: self.bytes, places: &places.list[..usize::from(places.count)] }
    }
}

/// The PNs for one node, in file order.
#[derive(Clone, Copy, Debug)]
pub struct Named<'a> {
    bytes: &'a [u8],
    places: &'a [u16],
}

impl<'a> Named<'a> {
    /// The PNs.
    #[inline(always)]
    pub fn iter(self) -> impl Iterator<Item = PolicyNode<'a>> {
        self.places.iter().map(move |place| PolicyNode { bytes: self.bytes, place: *place })
    }
}

/// What one policy says of one node: the ranks and conditions at `place`.
#[derive(Clone, Copy, Debug)]
pub struct PolicyNode<'a> {
    bytes: &'a [u8],
    place: u16,
}

impl PolicyNode<'_> {
    /// The rank of the successor at `index`.
    #[inline(always)]
    pub fn rank(self, index: u8) -> u8 {
        let [rank] = self.field(index);
        rank
    }

    /// Up to eight ranks, the first in the lowest byte; bytes from `count` on may be anything.
    #[inline(always)]
    pub fn ranks(self, count: u8) -> u64 {
        if usize::from(self.place) + 8 <= self.bytes.len() {
            return u64::from_le_bytes(self.field(0));
        }
        (0..count).fold(0, |ranks, index| ranks | u64::from(self.rank(index)) << (8 * index))
    }

    /// The range `offset` bytes after the first rank.
    #[inline(always)]
    pub fn range(self, offset: u8) -> Range {
        Range::from_be_bytes(self.field(offset))
    }

    /// As many ranges one after the other from `offset` bytes after the first rank on.
    #[inline(always)]
    pub fn ranges<const N: usize>(self, offset: u8) -> [Range; N] {
        let start = usize::from(self.place) + usize::from(offset);
        let (conditions, _) = self.bytes[start..start + 8 * N].as_chunks();
        std::array::from_fn(|index| Range::from_be_bytes(conditions[index]))
    }

    /// The mask `offset` bytes after the first rank.
    #[inline(always)]
    pub fn mask(self, offset: u8) -> u32 {
        u32::from_be_bytes(self.field(offset))
    }

    /// Whether `value` of `variable` meets the condition `offset` bytes after the first rank.
    pub fn admits(self, variable: Variable, offset: u8, value: i32) -> bool {
        match variable {
            Variable::Number(_) => self.range(offset).contains(value),
            Variable::Listed(_) => self.mask(offset) >> value & 1 == 1,
        }
    }

    #[inline(always)]
    fn field<const N: usize>(self, offset: u8) -> [u8; N] {
        field_at(self.bytes, self.place, offset)
    }
}

/// A PH: its days and n.
#[inline(always)]
fn read_head(fields: &mut Fields) -> Result<(Days, u8), Breach> {
    fields.mark(b"PH")?;
    let first = u16::from_be_bytes(fields.field()?);
    let last = u16::from_be_bytes(fields.judged(9, |last| first <= u16::from_be_bytes(last))?);
    let [n] = fields.field()?;
    Ok((Days { first, last }, n))
}

/// The nodes that a policy may still name, from `lowest` on. As a rule the next PN names the
/// lowest; its width is then known ahead of its node field, and the PN after it found sooner.
struct Ahead<'a> {
    lowest: usize,
    nodes: std::slice::Iter<'a, Node>,
}

impl<'a> Ahead<'a> {
    /// Goes past node `number`, if a PN may name it.
    #[inline(always)]
    fn pass(&mut self, schema: &Schema<'a>, number: usize) -> Option<&'a Node> {
        if number < self.lowest {
            return None;
        }
        if number > self.lowest {
            self.nodes = schema.nodes().get(number..)?.iter();
        }
        self.lowest = number + 1;
        self.nodes.next()
    }
}

/// The node and width of the PN that `bytes` begin with, if it has no breach.
#[inline(always)]
fn good_policy_node<'a>(
    bytes: &[u8],
    schema: &Schema<'a>,
    ahead: &mut Ahead<'a>,
) -> Option<(usize, usize)> {
    let ([m, n, number], said) = bytes.split_first_chunk()?;
    let number = usize::from(*number);
    let node = ahead.pass(schema, number)?;
    let said = said.get(..node.policy_width())?;
    let good = [*m, *n] == *b"PN" && masks_fit(node, said);
    good.then(|| (number, MARK_AND_NODE + said.len()))
}

/// Whether `said`, a PN's ranks and conditions, has no mask bit at or above its size.
#[inline(always)]
fn masks_fit(node: &Node, said: &[u8]) -> bool {
    let mut offset = node.ranks();
    !node.has_listed()
        || node.variables().iter().all(|variable| {
            let start = offset;
            offset += variable.condition_width();
            match variable {
                Variable::Number(_) => true,
                Variable::Listed(size) => mask_fits(field_at(said, 0, start), *size),
            }
        })
}

#[inline(always)]
fn mask_fits(mask: [u8; 4], size: u8) -> bool {
    u32::from_be_bytes(mask) & !full_mask(size) == 0
}

/// The first breach of a PN that is not good.
#[cold]
fn first_breach(mut fields: Fields, schema: &Schema, lowest: usize) -> Breach {
    read_policy_node(&mut fields, schema, lowest).expect_err("a PN with no breach is good")
}

/// A PN taken field by field; its node may not be below `lowest`.
fn read_policy_node(fields: &mut Fields, schema: &Schema, lowest: usize) -> Result<(), Breach> {
    fields.mark(b"PN")?;
    let allowed = lowest..schema.count();
    let [number] = fields.judged(10, |[number]| allowed.contains(&usize::from(number)))?;
    let node = schema.node(usize::from(number));
    for _ in 0..node.ranks() {
        fields.field::<1>()?;
    }
    for variable in node.variables() {
        match variable {
            Variable::Number(_) => {
                fields.field::<4>()?;
                fields.field::<4>()?;
            }
            Variable::Listed(size) => {
                fields.judged(11, |mask| mask_fits(mask, *size))?;
            }
        }
    }
    Ok(())
}
