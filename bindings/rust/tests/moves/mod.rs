//! Moves that several tests plan.

use girnhusk::Move;

/// Limits of 1 in both directions, from rest at 0 to rest at `pf`.
pub fn step(pf: f64, j_max: f64) -> Move {
    Move {
        pf,
        v_max: 1.0,
        v_min: -1.0,
        a_max: 1.0,
        a_min: -1.0,
        j_max,
        ..Move::default()
    }
}

/// Document 01's move 3: at speed 1 all the way, with no jerk.
pub fn passing() -> Move {
    Move {
        v0: 1.0,
        vf: 1.0,
        ..step(3.0, 0.0)
    }
}

/// A move with a stretch between two durations, and one with two.
pub fn with_stretches() -> [Move; 2] {
    let one = Move {
        p0: -1.0,
        v0: 1.0,
        pf: 1.5,
        vf: 0.5,
        af: -1.0,
        v_max: 1.0,
        v_min: -2.0,
        a_max: 3.0,
        a_min: -3.0,
        j_max: 1.0,
        brake: 0.5,
        accel: 0.25,
        ..Move::default()
    };
    let two = Move {
        v0: -0.5,
        a0: 2.0,
        pf: -1.0,
        af: 2.0,
        v_max: 1.5,
        v_min: -1.5,
        a_max: 2.0,
        a_min: -0.5,
        ..one
    };
    [one, two]
}
