//! Step 1 with document 01's functions and every mutant, each behind the switch.
#![no_std]
// Mutated text has its own style.
#![allow(
    unused_parens,
    unused_assignments,
    unused_variables,
    unused_mut,
    non_snake_case,
    unreachable_code,
    dead_code
)]

mod functions {
    pub use machine::sqrt;
    pub use nearest::{cbrt, cosine_and_sine_of_third};
}

include!("../../../step1/crate.rs");

mod values {
    use crate::brake::BrakeProfile;
    use crate::profile::{ControlSigns, Direction, Profile, ReachedLimits};
    use mutant_switch::Value;

    macro_rules! names {
        ($($name:ty),*) => { $(impl Value for $name {
            fn same(self, other: $name) -> bool {
                self == other
            }
        })* };
    }

    names!(ControlSigns, Direction, ReachedLimits);

    impl Value for BrakeProfile {
        fn same(self, other: BrakeProfile) -> bool {
            self.duration.same(other.duration)
        }
    }

    /// Whether profiles differ isn't looked at.
    impl Value for Profile {
        fn same(self, _: Profile) -> bool {
            false
        }
    }
}
