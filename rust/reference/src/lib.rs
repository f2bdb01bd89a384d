//! The specification, 01 and the first request of 02 (docs/MODEL.md and docs/NUMBERS.md say both), as
//! a program of its own, written from it alone: the readers of the three files, the five calls and
//! what passplan prints. One file for each section.
#![forbid(unsafe_code)]

mod answer;
mod call;
pub mod cases;
mod check;
mod compare;
mod copy;
pub mod fields;
pub mod instance;
mod order;
pub mod pass;
mod passplan;
pub mod policies;
mod reconcile;
pub mod schema;
mod sheet;
pub mod table;

pub use answer::Answer;
pub use check::check;
pub use compare::compare;
pub use copy::copy;
pub use passplan::passplan;
pub use reconcile::reconcile;
pub use sheet::sheet;
