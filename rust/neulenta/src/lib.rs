//! Safe calls of Neulenta's static library.
//!
//! [`reconcile`] writes the best instance of a schema that meets the policies in force, [`check`]
//! says whether an instance meets them, [`compare`] which of two is better, [`copy`] reads an
//! instance and writes it again, and [`sheet`] writes it in lines for a console. `docs/MODEL.md` says
//! what schemas, policies, passes and instances are; `docs/NUMBERS.md` has the fields of their files,
//! the columns of a sheet and the numbers of the refusals.
//!
//! Files are raw bytes: nobody needs to have inspected them first. Every call ends on every input,
//! keeps nothing for the next and allocates nothing. The thread that calls must have [`STACK`] bytes
//! of stack left. A call that refuses says why, in which file and at which offset ([`Refused`]).
//!
//! The crate is used from within its repository, `neulenta = { path = "../rust/neulenta" }`, on x86-64
//! Linux. It links `target/staticlib/libexports.a`, which `tools/build exports` makes there, or the
//! archive in the folder that the environment variable `NEULENTA_LIB` names, by an absolute path:
//! `PREFIX/lib` where the library is installed. Then [`compatible`] says whether that one will do.
//!
//! `a` and `b`, where a call takes them, are the first and the last day of the pass: `b` is `a` or
//! `a + 1`, else the call refuses.
//!
//! # Example
//!
//! ```
//! use neulenta::{File, LONGEST, LONGEST_SHEET, Refusal, Refused};
//!
//! // The worked example: examples/worked has the files with comments.
//! let schema = b"SH\x03SN\x01\x02\x01\x02\0SN\x01\0\x01\0\0\0\0\x01\0\0\0\x0aSN\x01\0\0";
//! let policies = b"PH\0\x64\0\x64\x01PN\0\0\x05\
//!     PH\0\x65\0\xc8\x02PN\0\x01\0PN\x01\0\0\0\x04\0\0\0\x08";
//!
//! let mut out = [0; LONGEST];
//! let length = neulenta::reconcile(schema, policies, 100, 100, &mut out)?;
//! let instance = &out[..length];
//! assert_eq!(instance, b"IH\x02IN\0\x01IN\x01\xff\0\0\0\x01");
//! neulenta::check(schema, policies, 100, 100, instance)?;
//!
//! let mut lines = [0; LONGEST_SHEET];
//! let length = neulenta::sheet(schema, instance, &mut lines)?;
//! assert_eq!(length, 2 * 55);
//! assert!(lines.starts_with(b" 0   1 ") && lines[55..].starts_with(b" 1 ---           1 "));
//!
//! // Day 101 has another policy in force, which admits the values 4 to 8.
//! match neulenta::check(schema, policies, 100, 101, instance) {
//!     Err(Refused { refusal: Refusal::Forbidden, file: Some(File::Instance), offset: 11 }) => {}
//!     other => panic!("{other:?}"),
//! }
//!
//! let refused = neulenta::reconcile(schema, policies, 100, 102, &mut out).unwrap_err();
//! assert_eq!(
//!     refused.to_string(),
//!     "number 12, pass, offset 0: \
//!      last day of the pass below its first day, or above the day after it",
//! );
//! # Ok::<(), Refused>(())
//! ```
//!
//! # Panics
//!
//! A call panics if the library answers what this wrapper does not have. Then the two are of
//! different versions, and not [`compatible`]. The library of this version is proved to answer
//! nothing else.

mod answer;
pub mod raw;

pub use answer::{File, Refusal, Refused, Verdict};

/// The bytes of the longest instance. A buffer of this length is never too short for one.
pub const LONGEST: usize = 1_283;

/// The bytes of the longest sheet. A buffer of this length is never too short for one.
pub const LONGEST_SHEET: usize = 3_520;

/// Bytes of stack that, left, are enough for any call. A thread needs some for itself: give it a
/// `stack_size` of `STACK + 16_384` or more.
pub const STACK: usize = 20_480;

/// The version of the calls for which this wrapper is written: major, minor and patch in a byte
/// each.
pub const VERSION: u32 = 0x01_00_00;

/// The version of the library that is linked, as [`VERSION`] has it.
#[must_use]
pub fn version() -> u32 {
    raw::version()
}

/// Whether the library that is linked does what this wrapper expects: no older, and of the same major
/// number.
#[must_use]
pub fn compatible() -> bool {
    version() >> 16 == VERSION >> 16 && version() >= VERSION
}

/// Writes at the start of `out` the best instance that meets every policy in force from day `a` to
/// day `b`, each variable at its least admitted value, and gives its length.
///
/// The bytes beyond it stay. After a refusal `out` is as it was.
pub fn reconcile(
    schema: &[u8],
    policies: &[u8],
    a: u16,
    b: u16,
    out: &mut [u8],
) -> Result<usize, Refused> {
    raw::reconcile(schema, policies, a, b, out).result().map(length)
}

/// Accepts exactly the file of an instance of `schema` that meets every policy in force from day
/// `a` to day `b`.
pub fn check(
    schema: &[u8],
    policies: &[u8],
    a: u16,
    b: u16,
    instance: &[u8],
) -> Result<(), Refused> {
    raw::check(schema, policies, a, b, instance).result().map(|_| ())
}

/// Says which of two instances of `schema` is better under the policies in force from day `a` to
/// day `b`.
///
/// They need not meet the policies; a successor that is not allowed ranks as worst. Values do not
/// count.
pub fn compare(
    schema: &[u8],
    policies: &[u8],
    a: u16,
    b: u16,
    first: &[u8],
    second: &[u8],
) -> Result<Verdict, Refused> {
    let verdict = raw::compare(schema, policies, a, b, first, second).result()?;
    Ok(answer::known("verdict", verdict, Verdict::of(verdict)))
}

/// Reads `instance`, an instance of `schema`, writes it at the start of `out` and gives its length.
///
/// The bytes beyond it stay. After a refusal `out` is as it was.
pub fn copy(schema: &[u8], instance: &[u8], out: &mut [u8]) -> Result<usize, Refused> {
    raw::copy(schema, instance, out).result().map(length)
}

/// Reads `instance`, an instance of `schema`, writes its sheet at the start of `out` and gives the
/// sheet's length: 55 for each entry.
///
/// A sheet has a line for each entry, 54 bytes and a line feed: the node, its choice (`---` where
/// there is none) and up to four values, in columns that `docs/NUMBERS.md` gives. The bytes beyond it
/// stay. After a refusal `out` is as it was.
pub fn sheet(schema: &[u8], instance: &[u8], out: &mut [u8]) -> Result<usize, Refused> {
    raw::sheet(schema, instance, out).result().map(length)
}

/// A length written, which is at most that of a slice.
fn length(value: u64) -> usize {
    value as usize
}
