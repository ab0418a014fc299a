//! What the tests and the benchmark use of the core, from outside.

pub mod driver;
pub mod random;
pub mod shell;
