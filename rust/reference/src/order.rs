//! 01, 'The order': successors of one node by the ranks of the policies in force.

use crate::policies::Named;

const LOW_SEVEN: u64 = 0x7f7f_7f7f_7f7f_7f7f;
const LOWEST: u64 = 0x0101_0101_0101_0101;
const HIGHEST: u64 = 0x8080_8080_8080_8080;

/// Whether the successor at `p` is better than the one at `q`: the first policy whose ranks
/// differ decides, lower being better, or else the lower node number, which stands first.
pub fn is_better(named: Named, p: u8, q: u8) -> bool {
    named
        .iter()
        .map(|node| (node.rank(p), node.rank(q)))
        .find(|(rank_p, rank_q)| rank_p != rank_q)
        .map_or(p < q, |(rank_p, rank_q)| rank_p < rank_q)
}

/// Up to eight successors of one node, the highest bit of byte i standing for the i-th.
#[derive(Clone, Copy, Debug)]
pub struct Successors(u64);

impl Successors {
    /// All of `count`, from 1 to 8.
    #[inline(always)]
    pub fn all(count: u8) -> Self {
        Successors(HIGHEST >> (64 - 8 * u32::from(count)))
    }

    /// Those of `count` that `keep` holds of.
    #[inline(always)]
    pub fn those(count: u8, keep: impl Fn(u8) -> bool) -> Self {
        Successors(
            (0..count).fold(0, |kept, index| kept | u64::from(keep(index)) << (8 * index + 7)),
        )
    }

    /// Those that no policy of `named` ranks 255.
    #[inline(always)]
    pub fn allowed(self, count: u8, named: Named) -> Self {
        let forbidden = named.iter().fold(0, |forbidden, node| {
            let ranks = node.ranks(count);
            forbidden | ((ranks & LOW_SEVEN) + LOWEST) & ranks
        });
        Successors(self.0 & !forbidden)
    }

    /// The place of the best of them by `named`, if there is any; all are allowed.
    #[inline(always)]
    pub fn best(self, count: u8, named: Named) -> Option<u8> {
        let mut left = self.0;
        for node in named.iter() {
            if left & left.wrapping_sub(1) == 0 {
                break;
            }
            left = least_ranked(left, node.ranks(count));
        }
        (left != 0).then(|| (left.trailing_zeros() / 8) as u8)
    }
}

/// Those of `left` whose rank is the least of all in `left`; none has 255.
#[inline(always)]
fn least_ranked(left: u64, ranks: u64) -> u64 {
    let others = !((left << 1).wrapping_sub(left >> 7));
    let shown = ranks | others;
    let least = shown.to_le_bytes().into_iter().fold(u8::MAX, u8::min);
    let differing = shown ^ (u64::from(least) * LOWEST);
    !(((differing & LOW_SEVEN) + LOW_SEVEN) | differing) & HIGHEST
}
