//! The archive's arrival of several axes, safe to call.

mod archive {
    extern "C" {
        pub fn girnhusk_arrival(
            durations: *const f64,
            durations_len: usize,
            ends: *const f64,
            ends_len: usize,
            time: &mut f64,
            axis: &mut u64,
        ) -> u64;
    }
}

/// The archive's answer: 0, 9 or 10, the time and the axis. What it must store is told from what it leaves.
#[inline]
pub fn arrival(durations: &[f64], ends: &[f64]) -> (u64, f64, u64) {
    let (mut time, mut axis) = (f64::NAN, u64::MAX);
    // SAFETY: pointers and lengths are those of slices, which are only read; it writes the two numbers lent.
    let number = unsafe {
        archive::girnhusk_arrival(
            durations.as_ptr(),
            durations.len(),
            ends.as_ptr(),
            ends.len(),
            &mut time,
            &mut axis,
        )
    };
    (number, time, axis)
}
