//! The calls against 01's sentences themselves, on data and by plain means.

mod full_size;
mod problem;
mod small;
