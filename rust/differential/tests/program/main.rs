//! The program passplan against what the reference prints; it is built by `tools/build passplan`.

mod faults;
mod files;
mod input;
mod made;
mod output;
mod run;
