//! The calls with their answers as C has them, for who forwards numbers.

/// What every call answers (`neulenta_answer`).
#[must_use]
#[repr(C)]
#[derive(Clone, Copy, Debug, PartialEq, Eq, Hash)]
pub struct Answer {
    /// 0, or why the call refuses.
    pub number: u32,
    /// The file in which the number arose, or 0.
    pub file: u32,
    /// The first byte of the failing field.
    pub offset: u64,
    /// The length written or the verdict, else 0.
    pub value: u64,
}

mod exports {
    use super::Answer;

    // SAFETY: these are the signatures of include/neulenta.h.
    unsafe extern "C" {
        pub fn neulenta_copy(
            schema: *const u8,
            schema_length: usize,
            instance: *const u8,
            instance_length: usize,
            out: *mut u8,
            out_length: usize,
        ) -> Answer;

        pub fn neulenta_reconcile(
            schema: *const u8,
            schema_length: usize,
            policies: *const u8,
            policies_length: usize,
            a: u16,
            b: u16,
            out: *mut u8,
            out_length: usize,
        ) -> Answer;

        pub fn neulenta_check(
            schema: *const u8,
            schema_length: usize,
            policies: *const u8,
            policies_length: usize,
            a: u16,
            b: u16,
            instance: *const u8,
            instance_length: usize,
        ) -> Answer;

        pub fn neulenta_compare(
            schema: *const u8,
            schema_length: usize,
            policies: *const u8,
            policies_length: usize,
            a: u16,
            b: u16,
            first: *const u8,
            first_length: usize,
            second: *const u8,
            second_length: usize,
        ) -> Answer;

        pub fn neulenta_sheet(
            schema: *const u8,
            schema_length: usize,
            instance: *const u8,
            instance_length: usize,
            out: *mut u8,
            out_length: usize,
        ) -> Answer;

        pub safe fn neulenta_version() -> u32;
    }
}

pub(crate) use exports::neulenta_version as version;

/// Calls `$name` with files, days, instances and a buffer, a slice as its pointer and length.
macro_rules! call {
    ($name:ident, [$($file:ident)*], [$($day:ident)*], [$($instance:ident)*], [$($out:ident)?]) => {
        // SAFETY: each pointer and length are those of one slice; only the buffer is written, and
        // it overlaps no other slice.
        unsafe {
            exports::$name(
                $($file.as_ptr(), $file.len(),)*
                $($day,)*
                $($instance.as_ptr(), $instance.len(),)*
                $($out.as_mut_ptr(), $out.len())?
            )
        }
    };
}

/// [`crate::copy`]; the value is the length written.
pub fn copy(schema: &[u8], instance: &[u8], out: &mut [u8]) -> Answer {
    call!(neulenta_copy, [schema], [], [instance], [out])
}

/// [`crate::reconcile`]; the value is the length written.
pub fn reconcile(schema: &[u8], policies: &[u8], a: u16, b: u16, out: &mut [u8]) -> Answer {
    call!(neulenta_reconcile, [schema policies], [a b], [], [out])
}

/// [`crate::check`]; the value is 0.
pub fn check(schema: &[u8], policies: &[u8], a: u16, b: u16, instance: &[u8]) -> Answer {
    call!(neulenta_check, [schema policies], [a b], [instance], [])
}

/// [`crate::compare`]; the value is the verdict.
pub fn compare(
    schema: &[u8],
    policies: &[u8],
    a: u16,
    b: u16,
    first: &[u8],
    second: &[u8],
) -> Answer {
    call!(neulenta_compare, [schema policies], [a b], [first second], [])
}

/// [`crate::sheet`]; the value is the length written.
pub fn sheet(schema: &[u8], instance: &[u8], out: &mut [u8]) -> Answer {
    call!(neulenta_sheet, [schema], [], [instance], [out])
}
