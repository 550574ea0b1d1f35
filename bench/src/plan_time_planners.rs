//! The two planners that are timed, each planning one move.

use answers::{Limits, Move, MOVE_LENGTH};
use bench::plans::{plan, PLAN_DURATION, PLAN_LENGTH};
use std::hint::black_box;
use step1_same::block::Block;
use step1_same::choice::{input_profile, planner_for};
use step1_same::position_third_step1::PositionThirdOrderStep1;

/// A verdict, and the shortest duration: what the two sides' checksums are made of.
pub struct Answer {
    pub verdict: u64,
    pub shortest: f64,
}

/// The archive's function, on a plan that is used again: each number that it writes counts as read.
pub struct Library {
    plan: [f64; PLAN_LENGTH],
}

impl Library {
    pub fn new() -> Self {
        Library { plan: [0.0; PLAN_LENGTH] }
    }

    #[inline(always)]
    pub fn answer(&mut self, asked: &[f64; MOVE_LENGTH]) -> Answer {
        let verdict = plan(asked, &mut self.plan);
        let plan = black_box(&self.plan);
        Answer { verdict, shortest: plan[PLAN_DURATION] }
    }
}

/// The Rust on a fresh planner and block, as document 01 has it.
#[inline(always)]
pub fn fresh(asked: &Move) -> Answer {
    let mut planner = planner_for(asked);
    planned(&mut planner, asked)
}

/// The Rust on a planner that is used again, by its own `reset`; the block is fresh.
#[inline(always)]
pub fn reused(planner: &mut PositionThirdOrderStep1, asked: &Move) -> Answer {
    let Move { p0, v0, a0, pf, vf, af, limits, .. } = *asked;
    let Limits { v_max, v_min, a_max, a_min, j_max } = limits;
    planner.reset(p0, v0, a0, pf, vf, af, v_max, v_min, a_max, a_min, j_max);
    planned(planner, asked)
}

#[inline(always)]
fn planned(planner: &mut PositionThirdOrderStep1, asked: &Move) -> Answer {
    let mut block = Block::default();
    let found = planner.get_profile(&input_profile(asked), &mut block);
    let block = black_box(&block);
    let verdict = match (found, block.accepted) {
        (true, _) => 0,
        (false, 0) => 4,
        (false, _) => 5,
    };
    Answer { verdict, shortest: block.t_min }
}
