//! Document 02's one arrival time for all axes (A1), by brute force: every number given and its neighbours are tried.

/// A move has at most this many axes.
const MOST_AXES: usize = 8;

/// The earliest time that no axis blocks and the lowest axis that has it, or the refusal's number.
pub fn arrival(durations: &[f64], ends: &[f64]) -> Result<(f64, usize), u8> {
    if is_malformed(durations, ends) {
        return Err(9);
    }
    let mut earliest = f64::INFINITY;
    for given in durations.iter().chain(ends).chain(&[0.0]) {
        for t in [given.next_down(), *given, given.next_up()] {
            if t < earliest && is_free_for_all(durations, ends, t) {
                earliest = t;
            }
        }
    }
    // No finite one is free.
    if earliest == f64::INFINITY {
        return Err(10);
    }
    // -0 is given as 0.
    let time = if earliest == 0.0 { 0.0 } else { earliest };
    match axes(durations, ends).position(|(duration, ends)| has(duration, ends, time)) {
        Some(axis) => Ok((time, axis)),
        None => unreachable!("the earliest time is a duration or a right end"),
    }
}

/// Each axis: its shortest duration, and left and right end of two stretches.
fn axes<'a>(durations: &'a [f64], ends: &'a [f64]) -> impl Iterator<Item = (f64, &'a [f64])> {
    durations.iter().copied().zip(ends.chunks(4))
}

/// Number 9.
fn is_malformed(durations: &[f64], ends: &[f64]) -> bool {
    let count = durations.len();
    if count == 0 || count > MOST_AXES || ends.len() != 4 * count {
        return true;
    }
    for (duration, ends) in axes(durations, ends) {
        if duration < 0.0
            || !duration.is_finite()
            || is_malformed_stretch(duration, ends[0], ends[1])
            || is_malformed_stretch(duration, ends[2], ends[3])
        {
            return true;
        }
    }
    false
}

fn is_malformed_stretch(duration: f64, left: f64, right: f64) -> bool {
    !is_missing(left, right)
        && (!left.is_finite() || left < duration || right.is_nan() || right < left)
}

/// A missing stretch is 0 and 0, of any sign.
fn is_missing(left: f64, right: f64) -> bool {
    left == 0.0 && right == 0.0
}

/// Whether no axis blocks a time.
pub fn is_free_for_all(durations: &[f64], ends: &[f64], t: f64) -> bool {
    for (duration, ends) in axes(durations, ends) {
        if t < duration || is_inside(ends[0], ends[1], t) || is_inside(ends[2], ends[3], t) {
            return false;
        }
    }
    true
}

/// Whether a time is inside a stretch: both ends are free, and there is nothing inside a missing one.
fn is_inside(left: f64, right: f64, t: f64) -> bool {
    left < t && t < right
}

/// Whether an axis has a time as shortest duration or right end.
fn has(duration: f64, ends: &[f64], t: f64) -> bool {
    duration == t || ends_at(ends[0], ends[1], t) || ends_at(ends[2], ends[3], t)
}

fn ends_at(left: f64, right: f64, t: f64) -> bool {
    !is_missing(left, right) && right == t
}
