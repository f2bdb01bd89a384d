//! Tables with one row for each node of a schema, on the stack.

/// The most nodes of a schema.
pub const NODES: usize = 64;

/// The rows of a short table.
pub const FEW: usize = 8;

/// Makes `$table` a table of rows `$empty` with a place for each of `$count` nodes: a short one
/// where it suffices, because setting up a long one takes longer than a small call.
macro_rules! table {
    ($table:ident, $empty:expr, $count:expr) => {
        let (mut few, mut many);
        let $table: &mut [_] = if $count <= $crate::table::FEW {
            few = [$empty; $crate::table::FEW];
            &mut few
        } else {
            many = [$empty; $crate::table::NODES];
            &mut many
        };
    };
}

pub(crate) use table;

/// The members of a set of node numbers, ascending.
#[inline(always)]
pub fn members(mut set: u64) -> impl Iterator<Item = usize> {
    std::iter::from_fn(move || {
        let lowest = set.trailing_zeros() as usize;
        set &= set.wrapping_sub(1);
        (lowest < NODES).then_some(lowest)
    })
}
