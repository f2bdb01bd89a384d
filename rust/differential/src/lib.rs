//! Inputs for programs after 01 (random valid files, fixed shapes, spoiled files) and
//! the comparison of the static library with the reference on them.

pub mod generate;
pub mod model;
pub mod mutate;
pub mod random;
pub mod scenario;
pub mod shapes;

#[cfg(feature = "library")]
pub mod library;
#[cfg(feature = "library")]
pub mod trial;
