//! The wrapper against document 01's moves, its refusals and its lengths.

mod moves;

use girnhusk::raw::{
    INTERVAL_PROFILE, MOVE_LENGTH, PHASES, PLAN_LENGTH, PLAN_STRETCH_A, ROWS, WRONG_LENGTH,
};
use girnhusk::{
    elementary, plan, raw, ControlSigns, Direction, Limits, Move, NotFinite, Plan, Profile,
    Refusal, Stretch,
};
use moves::{passing, step, with_stretches};

/// A move that refusal 5 turns back.
fn four_profiles() -> Move {
    Move {
        p0: 1.0,
        v0: 0.5,
        a0: -1.0,
        pf: 1.0 + f64::EPSILON,
        vf: -0.5,
        af: -1.0,
        v_max: 1.0,
        v_min: -2.0,
        a_max: 2.0,
        a_min: -2.0,
        j_max: 1.0,
        ..Move::default()
    }
}

fn empty_profile() -> Profile {
    Profile {
        direction: Direction::Up,
        limits: Limits::None,
        control_signs: ControlSigns::Uddu,
        t: [0.0; PHASES],
        t_sum: [0.0; PHASES],
        j: [0.0; PHASES],
        a: [0.0; ROWS],
        v: [0.0; ROWS],
        p: [0.0; ROWS],
        pf: 0.0,
        vf: 0.0,
        af: 0.0,
        brake: 0.0,
        accel: 0.0,
    }
}

fn assert_no_stretch(planned: &Plan) {
    for interval in [planned.a(), planned.b()] {
        assert_eq!(interval.stretch, Stretch::Nothing);
        assert_eq!(interval.profile, empty_profile());
    }
}

#[test]
fn a_rest_takes_no_time() {
    let planned = plan(&step(0.0, 1.0)).unwrap();
    assert_eq!(planned.duration(), 0.0);
    assert_eq!(
        (planned.profile().direction, planned.profile().limits),
        (Direction::Up, Limits::None)
    );
    assert_no_stretch(&planned);
}

#[test]
fn a_step_of_4_takes_6() {
    let planned = plan(&step(4.0, 1.0)).unwrap();
    assert_eq!(planned.duration(), 6.0);
    let want = Profile {
        limits: Limits::Vel,
        t: [1.0, 0.0, 1.0, 2.0, 1.0, 0.0, 1.0],
        t_sum: [1.0, 1.0, 2.0, 4.0, 5.0, 5.0, 6.0],
        j: [1.0, 0.0, -1.0, 0.0, -1.0, 0.0, 1.0],
        a: [0.0, 1.0, 1.0, 0.0, 0.0, -1.0, -1.0, 0.0],
        v: [0.0, 0.5, 0.5, 1.0, 1.0, 0.5, 0.5, 0.0],
        pf: 4.0,
        ..planned.profile()
    };
    assert_eq!(planned.profile(), want);
    assert_eq!((planned.profile().p[0], planned.profile().p[7]), (0.0, 4.0));
    assert_no_stretch(&planned);
}

#[test]
fn a_step_down_mirrors_it() {
    let planned = plan(&step(-4.0, 1.0)).unwrap();
    assert_eq!(planned.duration(), 6.0);
    assert_eq!(
        (planned.profile().direction, planned.profile().limits),
        (Direction::Down, Limits::Vel)
    );
    assert_eq!(planned.profile().p[7], -4.0);
}

#[test]
fn passing_through_has_one_duration() {
    let planned = plan(&passing()).unwrap();
    assert_eq!(planned.duration(), 3.0);
    assert_eq!(
        (planned.profile().direction, planned.profile().limits),
        (Direction::Up, Limits::None)
    );
    assert_eq!(planned.a().stretch, Stretch::From(3.0));
    assert_eq!(planned.a().profile, empty_profile());
    assert_eq!(planned.b().stretch, Stretch::Nothing);
    assert_eq!(
        planned.numbers()[PLAN_STRETCH_A..][..INTERVAL_PROFILE],
        [2.0, 3.0, f64::INFINITY]
    );
    assert_eq!(planned.is_blocked(2.5), Ok(true));
    assert_eq!(planned.is_blocked(3.0), Ok(false));
    assert_eq!(planned.is_blocked(4.0), Ok(true));
    for t in [f64::NAN, f64::INFINITY, f64::NEG_INFINITY] {
        assert_eq!(planned.is_blocked(t), Err(NotFinite));
    }
}

#[test]
fn a_far_profile_lies_beside_each_stretch() {
    for (mv, count) in with_stretches().iter().zip(1..) {
        let planned = plan(mv).unwrap();
        let mut between = 0;
        for interval in [planned.a(), planned.b()] {
            let Stretch::Between { left, right } = interval.stretch else {
                continue;
            };
            let far = interval.profile;
            between += 1;
            assert!(planned.duration() <= left && left < right);
            assert_eq!(far.t_sum[6] + far.brake + far.accel, right);
            assert_eq!((far.p[0], far.v[0], far.a[0]), (mv.p0, mv.v0, mv.a0));
            assert_eq!(
                (far.pf, far.vf, far.af, far.brake, far.accel),
                (mv.pf, mv.vf, mv.af, mv.brake, mv.accel)
            );
            assert_eq!(planned.is_blocked(left), Ok(false));
            assert_eq!(planned.is_blocked((left + right) / 2.0), Ok(true));
            assert_eq!(planned.is_blocked(right), Ok(false));
        }
        assert_eq!(between, count);
    }
}

#[test]
fn brake_and_accel_count() {
    let planned = plan(&Move {
        brake: 0.5,
        accel: 0.25,
        ..step(4.0, 1.0)
    })
    .unwrap();
    assert_eq!(planned.duration(), 6.75);
    assert_eq!(
        (planned.profile().brake, planned.profile().accel),
        (0.5, 0.25)
    );
    assert_eq!(planned.is_blocked(6.5), Ok(true));
    assert_eq!(planned.is_blocked(6.75), Ok(false));
}

#[test]
fn every_refusal() {
    for i in 0..MOVE_LENGTH {
        for x in [f64::NAN, f64::INFINITY, f64::NEG_INFINITY] {
            let mut mv = step(4.0, 1.0).numbers();
            mv[i] = x;
            assert_eq!(raw::plan(&mv, &mut [0.0; PLAN_LENGTH]), 1);
        }
    }
    let s = step(4.0, 1.0);
    let refused = |mv: Move| plan(&mv).unwrap_err();
    assert_eq!(
        refused(Move {
            p0: f64::NAN,
            v_max: -1.0,
            ..s
        }),
        Refusal::NotFinite
    );
    assert_eq!(refused(Move { v_max: -1.0, ..s }), Refusal::WrongSign);
    assert_eq!(refused(Move { v_min: 1.0, ..s }), Refusal::WrongSign);
    assert_eq!(refused(Move { a_max: -1.0, ..s }), Refusal::WrongSign);
    assert_eq!(refused(Move { a_min: 1.0, ..s }), Refusal::WrongSign);
    assert_eq!(
        refused(Move {
            j_max: -1.0,
            brake: -1.0,
            ..s
        }),
        Refusal::WrongSign
    );
    assert_eq!(refused(Move { brake: -1.0, ..s }), Refusal::WrongDuration);
    assert_eq!(refused(Move { brake: 2e12, ..s }), Refusal::WrongDuration);
    assert_eq!(refused(Move { accel: -1.0, ..s }), Refusal::WrongDuration);
    assert_eq!(refused(Move { accel: 2e12, ..s }), Refusal::WrongDuration);
    assert_eq!(refused(step(1.0, 0.0)), Refusal::NoProfile);
    assert_eq!(refused(four_profiles()), Refusal::NoRemoval);
    assert_eq!(Refusal::NoRemoval.number(), 5);
    assert_eq!(Refusal::NoProfile.to_string(), "no profile was accepted");
}

/// The doubles of a buffer that is longer than a plan.
const LONGER: usize = PLAN_LENGTH + 34;

/// A buffer that shows each write.
fn marked<const N: usize>() -> [f64; N] {
    std::array::from_fn(|i| -1000.0 - i as f64)
}

#[test]
fn a_wrong_length_writes_nothing() {
    let mv: [f64; MOVE_LENGTH + 7] = std::array::from_fn(|i| {
        if i < MOVE_LENGTH {
            step(4.0, 1.0).numbers()[i]
        } else {
            0.0
        }
    });
    for n in (0..=mv.len()).filter(|&n| n != MOVE_LENGTH) {
        let mut out = marked::<PLAN_LENGTH>();
        assert_eq!(raw::plan(&mv[..n], &mut out), WRONG_LENGTH);
        assert_eq!(out, marked());
    }
    for n in 0..PLAN_LENGTH {
        let mut out = marked::<PLAN_LENGTH>();
        assert_eq!(raw::plan(&mv[..MOVE_LENGTH], &mut out[..n]), WRONG_LENGTH);
        assert_eq!(out, marked());
        assert_eq!(raw::is_blocked(&out[..n], 1.0), WRONG_LENGTH);
    }
}

#[test]
fn a_refusal_writes_nothing() {
    let s = step(4.0, 1.0);
    let moves = [
        Move { p0: f64::NAN, ..s },
        Move { v_max: -1.0, ..s },
        Move { brake: -1.0, ..s },
        step(1.0, 0.0),
        four_profiles(),
    ];
    for (mv, number) in moves.iter().zip(1..) {
        let mut out = marked::<LONGER>();
        assert_eq!(raw::plan(&mv.numbers(), &mut out), number);
        assert_eq!(out, marked());
    }
}

#[test]
fn nothing_beyond_the_plan_is_written() {
    let mut out = marked::<LONGER>();
    assert_eq!(raw::plan(&step(4.0, 1.0).numbers(), &mut out), 0);
    assert_eq!(
        out[..PLAN_LENGTH],
        plan(&step(4.0, 1.0)).unwrap().numbers()[..]
    );
    assert_eq!(out[PLAN_LENGTH..], marked::<LONGER>()[PLAN_LENGTH..]);
    assert_eq!(raw::is_blocked(&out, 6.0), 0);
    assert_eq!(raw::is_blocked(&out, 5.0), 1);
    assert_eq!(raw::is_blocked(&out, f64::NAN), 6);
}

#[test]
fn elementary_functions() {
    assert_eq!(elementary::sqrt(9.0), 3.0);
    assert!(elementary::sqrt(-1.0).is_nan());
    assert_eq!(elementary::cbrt(-27.0), -3.0);
    assert_eq!(elementary::third_angle_pair(1.0), (1.0, 0.0));
    assert_eq!(
        (
            elementary::third_angle_cosine(-1.0),
            elementary::third_angle_sine(-1.0)
        ),
        (0.5, 0.866_025_403_784_438_6)
    );
    assert!(
        elementary::third_angle_cosine(1.5).is_nan() && elementary::third_angle_sine(1.5).is_nan()
    );
}
