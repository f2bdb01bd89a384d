//! 01, 'Where a number arises': what every call answers.

use crate::fields::Breach;

/// File 1, the schema.
pub const SCHEMA: u32 = 1;
/// File 2, the policies.
pub const POLICIES: u32 = 2;
/// File 3, the pass.
pub const PASS: u32 = 3;
/// File 4, the instance, or the first of two.
pub const INSTANCE: u32 = 4;
/// File 5, the second instance.
pub const SECOND: u32 = 5;

/// The answer of a call.
#[derive(Clone, Copy, Debug, PartialEq, Eq)]
pub struct Answer {
    /// 0, or why the call refuses.
    pub number: u32,
    /// The file in which the number arose.
    pub file: u32,
    /// The first byte of the failing field.
    pub offset: u64,
    /// The length written or the verdict, else 0.
    pub value: u64,
}

impl Answer {
    /// A refusal: all other parts are 0.
    pub const fn refusal(number: u32, file: u32, offset: u64) -> Self {
        Answer { number, file, offset, value: 0 }
    }

    /// Number, file and offset 0.
    pub const fn success(value: u64) -> Self {
        Answer { number: 0, file: 0, offset: 0, value }
    }

    /// A number that arises from no file's field.
    pub(crate) const fn without_file(number: u32) -> Self {
        Answer::refusal(number, 0, 0)
    }
}

/// Puts a reader's breach into the file that was read.
pub(crate) trait InFile<T> {
    fn in_file(self, file: u32) -> Result<T, Answer>;
}

impl<T> InFile<T> for Result<T, Breach> {
    #[inline(always)]
    fn in_file(self, file: u32) -> Result<T, Answer> {
        self.map_err(|breach| Answer::refusal(breach.number, file, breach.offset as u64))
    }
}
