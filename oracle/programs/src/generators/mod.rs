//! The generators of what the oracle is asked. The same seed gives the same records everywhere.

pub mod arrivals;
pub mod blocks;
pub mod buffers;
pub mod checks;
pub mod families;
pub mod moves;
pub mod quartics;
pub mod replies;

pub mod motion;
