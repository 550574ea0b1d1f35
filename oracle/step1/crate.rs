// The body of every choice's crate, after its `functions`.

// The four files name their helpers by the crates they come from.
extern crate self as arrayvec;
extern crate self as num_traits;

pub use array_vec::ArrayVec;
pub use choice::Choice;
pub use float::Float;

include!(concat!(env!("OUT_DIR"), "/step1.rs"));
