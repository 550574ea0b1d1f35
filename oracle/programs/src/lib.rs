//! What the oracle's programs share: arguments, records, lines, and the generators of their inputs.

pub mod buffers;
pub mod command;
pub mod generators;
pub mod lines;
pub mod oracle;
pub mod plans;
pub mod random;
pub mod records;
