//! What the calls answer.

use std::error::Error;
use std::fmt;

use crate::raw::Answer;

/// An enum of the numbers that C has for its members, each with its text.
macro_rules! numbered {
    (
        $(#[$attribute:meta])*
        $name:ident, $number:ident, $word:literal,
        $($member:ident = $value:literal $text:literal)+
    ) => {
        $(#[$attribute])*
        #[repr($number)]
        #[derive(Clone, Copy, Debug, PartialEq, Eq, Hash)]
        pub enum $name {
            $(
                #[doc = concat!($word, " ", $value, ": ", $text, ".")]
                $member = $value,
            )+
        }

        impl $name {
            /// The number that C has for it.
            #[must_use]
            pub const fn number(self) -> $number {
                self as $number
            }

            /// The member for which C has `number`, if there is one.
            #[must_use]
            pub const fn of(number: $number) -> Option<$name> {
                match number {
                    $($value => Some($name::$member),)+
                    _ => None,
                }
            }
        }

        impl fmt::Display for $name {
            fn fmt(&self, formatter: &mut fmt::Formatter<'_>) -> fmt::Result {
                formatter.pad(match self {
                    $($name::$member => $text,)+
                })
            }
        }
    };
}

numbered! {
    /// Why a call refuses (`neulenta_number`). `docs/NUMBERS.md` says at which field of which file.
    #[non_exhaustive]
    Refusal, u32, "Number",
    WrongMark = 1 "a record does not begin with its two letters"
    IncompleteField = 2 "the bytes end before a field is complete"
    WrongCount = 3 "node count 0 or above 64"
    WrongKind = 4 "kind above 1, or successor count above 8, or 0 under kind 0"
    WrongSuccessor = 5
        "successor not ascending, not above its node's number or not below the node count"
    WrongVariable = 6
        "more than 4 variables, type above 1, hi below lo, or size 0 or above 32"
    SurplusByte = 7 "a byte remains after the last record"
    SurplusPolicy = 8 "a byte remains after sixteen policies"
    WrongPeriod = 9 "last day below first day"
    WrongNode = 10 "node not ascending in its policy or not below the node count"
    WrongMask = 11 "mask has a bit at or above the variable's size"
    WrongPass = 12 "last day of the pass below its first day, or above the day after it"
    NoInstance = 13 "no instance meets the policies in force"
    ShortBuffer = 14 "the buffer is shorter than the instance"
    WrongEntry = 15
        "entry not for the lowest reached node without one, or a reached node without an entry"
    WrongChoice = 16
        "choice is no successor of a kind 1 node that has any, or not 255 elsewhere"
    WrongValue = 17 "value outside the schema's domain"
    Forbidden = 18 "a policy in force forbids a choice or a value"
}

numbered! {
    /// The file in which a refusal arose (`neulenta_file`). The first of two instances is
    /// [`File::Instance`].
    #[non_exhaustive]
    File, u32, "File",
    Schema = 1 "schema"
    Policies = 2 "policies"
    Pass = 3 "pass"
    Instance = 4 "instance"
    SecondInstance = 5 "second instance"
}

numbered! {
    /// Which of two instances is better (`neulenta_verdict`).
    #[must_use]
    Verdict, u64, "Verdict",
    Alike = 0 "alike"
    FirstBetter = 1 "first better"
    SecondBetter = 2 "second better"
    Neither = 3 "neither"
}

/// What a call says when it refuses.
#[must_use]
#[derive(Clone, Copy, Debug, PartialEq, Eq, Hash)]
pub struct Refused {
    /// Why.
    pub refusal: Refusal,
    /// The file in which it arose, if in one.
    pub file: Option<File>,
    /// The first byte of the failing field, counted from 0 at the start of its file.
    pub offset: u64,
}

impl Error for Refused {}

impl fmt::Display for Refused {
    fn fmt(&self, formatter: &mut fmt::Formatter<'_>) -> fmt::Result {
        write!(formatter, "number {}", self.refusal.number())?;
        if let Some(file) = self.file {
            write!(formatter, ", {file}, offset {}", self.offset)?;
        }
        write!(formatter, ": {}", self.refusal)
    }
}

impl Answer {
    /// The value, or the refusal.
    ///
    /// # Panics
    ///
    /// If [`Refusal`] does not have the number or [`File`] does not have the file: then wrapper and
    /// library are of different versions. A library of this version is proved to give no others.
    pub fn result(self) -> Result<u64, Refused> {
        if self.number == 0 {
            return Ok(self.value);
        }
        let refusal = known("number", self.number.into(), Refusal::of(self.number));
        let file = match self.file {
            0 => None,
            file => Some(known("file", file.into(), File::of(file))),
        };
        Err(Refused { refusal, file, offset: self.offset })
    }
}

/// The member for `number`, which every library of this version has.
pub(crate) fn known<T>(word: &str, number: u64, member: Option<T>) -> T {
    member.unwrap_or_else(|| {
        panic!(
            "the library answers {word} {number}, which this wrapper does not have: they are of \
             different versions"
        )
    })
}
