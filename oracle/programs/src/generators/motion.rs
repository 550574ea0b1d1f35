//! Motion in phases of constant jerk: where the generated checks and moves end. Rounding doesn't matter here.

/// Position, velocity and acceleration at one time.
#[derive(Clone, Copy, Debug, PartialEq)]
pub struct State {
    pub p: f64,
    pub v: f64,
    pub a: f64,
}

impl State {
    pub fn after(&self, t: f64, j: f64) -> State {
        State {
            p: self.p + t * (self.v + t * (self.a / 2.0 + t * j / 6.0)),
            v: self.v + t * (self.a + t * j / 2.0),
            a: self.a + t * j,
        }
    }
}

/// The signs of the jerk in the seven phases, by control signs.
pub const JERK_SIGNS: [[f64; 7]; 2] = [
    [1.0, 0.0, -1.0, 0.0, -1.0, 0.0, 1.0],
    [1.0, 0.0, -1.0, 0.0, 1.0, 0.0, -1.0],
];

/// The places of limits' names whose check sets row 3's acceleration to 0, and of those that end in Vel.
pub const STANDING_AT_ROW_3: [usize; 5] = [0, 1, 4, 5, 6];
pub const ENDING_IN_VEL: [usize; 4] = [0, 1, 5, 6];
