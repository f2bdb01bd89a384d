//! 01, 'Instance and satisfaction': a pass, and which policies are in force in it.

use crate::fields::Breach;
use crate::policies::Days;

/// A pass from its first day to its last.
#[derive(Clone, Copy, Debug, PartialEq, Eq)]
pub struct Pass {
    /// The first day.
    pub a: u16,
    /// The last day.
    pub b: u16,
}

impl Pass {
    /// 12 if b is below a or above a + 1.
    pub fn judge(self) -> Result<(), Breach> {
        match self.b.checked_sub(self.a) {
            Some(0 | 1) => Ok(()),
            _ => Err(Breach { number: 12, offset: 0 }),
        }
    }

    /// Whether a policy of these days is in force.
    #[inline(always)]
    pub fn in_force(self, policy: Days) -> bool {
        policy.first <= self.b && policy.last >= self.a
    }
}
