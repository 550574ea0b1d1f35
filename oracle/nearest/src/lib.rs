//! Document 01's cube root, and its cosine and sine of a third of an angle: the nearest doubles, decided by comparing
//! whole numbers. The machine's functions only say where to look first.
#![no_std]

pub mod significand;
pub mod wide;

mod cube_root;
mod third;

pub use cube_root::cbrt;
pub use third::cosine_and_sine_of_third;

/// The same functions by bisection alone, without any estimate: what the quick ones are compared with.
pub mod plain {
    pub use crate::cube_root::plain_cbrt as cbrt;
    pub use crate::third::plain_cosine as cosine_of_third;
    pub use crate::third::plain_sine as sine_of_third;
}
