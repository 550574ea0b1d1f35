//! Supplied: the brake. Plans read its duration only; the rows are there because `get_position_extrema` names them.

#[derive(Clone, Copy, Debug, Default)]
pub struct BrakeProfile {
    pub duration: f64,
    pub t: [f64; 2],
    pub j: [f64; 2],
    pub a: [f64; 2],
    pub v: [f64; 2],
    pub p: [f64; 2],
}
