//! Document 01's examples, through the programs, byte for byte.

use answers::{is_blocked, plan, select, Move, Plan, Profile, Step1, Stretch, MOVE_LENGTH};
use programs::buffers::PLAN_LENGTH;
use programs::records::write_move;
use std::io::Write;
use std::process::{Command, Stdio};
use step1_exact::Choice;

const PLAN_MOVES: &str = env!("CARGO_BIN_EXE_plan_moves");
const PLAN_FULL: &str = env!("CARGO_BIN_EXE_plan_full");

/// p0 v0 a0 pf vf af and j_max, with v limits 1, -1, a limits 1, -1, durations 0.
fn simple([p0, v0, a0, pf, vf, af, j_max]: [f64; 7]) -> [f64; MOVE_LENGTH] {
    [
        p0, v0, a0, pf, vf, af, 1.0, -1.0, 1.0, -1.0, j_max, 0.0, 0.0,
    ]
}

fn records(moves: &[[f64; MOVE_LENGTH]]) -> Vec<u8> {
    let mut bytes = Vec::new();
    for &numbers in moves {
        write_move(&mut bytes, &Move::from_numbers(numbers)).unwrap();
    }
    bytes
}

/// A program's output, where it ends well.
fn output(program: &str, arguments: &[&str], input: &[u8]) -> String {
    let mut child = Command::new(program)
        .args(arguments)
        .stdin(Stdio::piped())
        .stdout(Stdio::piped())
        .spawn()
        .unwrap();
    child.stdin.take().unwrap().write_all(input).unwrap();
    let output = child.wait_with_output().unwrap();
    assert!(output.status.success());
    String::from_utf8(output.stdout).unwrap()
}

fn plan_moves(input: &[u8]) -> String {
    output(PLAN_MOVES, &[], input)
}

fn four_moves() -> [[f64; MOVE_LENGTH]; 4] {
    [
        simple([0.0, 0.0, 0.0, 0.0, 0.0, 0.0, 1.0]),
        simple([0.0, 0.0, 0.0, 4.0, 0.0, 0.0, 1.0]),
        simple([0.0, 1.0, 0.0, 3.0, 1.0, 0.0, 0.0]),
        simple([0.0, 0.0, 0.0, 1.0, 0.0, 0.0, 0.0]),
    ]
}

const FOUR_LINES: &str = "plan 1
1 ok 0000000000000000 UP None 0
2 ok 4018000000000000 UP Vel 0
3 ok 4008000000000000 UP None 1 4008000000000000 7FF0000000000000
4 refused 4
";

#[test]
fn the_four_moves() {
    assert_eq!(plan_moves(&records(&four_moves())), FOUR_LINES);
    for choice in ["exact", "std", "libc"] {
        let lines = output(
            PLAN_MOVES,
            &["--functions", choice],
            &records(&four_moves()),
        );
        assert_eq!(lines, FOUR_LINES);
    }
}

#[test]
fn the_way_back() {
    let lines = plan_moves(&records(&[simple([0.0, 0.0, 0.0, -4.0, 0.0, 0.0, 1.0])]));
    assert_eq!(lines, "plan 1\n1 ok 4018000000000000 DOWN Vel 0\n");
}

#[test]
fn the_third_move_blocks_all_durations_but_one() {
    let third = plan::<Choice>(&Move::from_numbers(four_moves()[2])).unwrap();
    for (t, blocked) in [(2.5, true), (3.0, false), (4.0, true)] {
        assert_eq!(Choice::is_blocked(&third, t), blocked, "{t}");
    }
}

#[test]
fn nothing_in_gives_the_first_line_only() {
    assert_eq!(plan_moves(&[]), "plan 1\n");
    assert_eq!(output(PLAN_FULL, &[], &[]), "");
}

/// A move of ordinary size with four accepted profiles of which no rule removes one.
#[test]
fn refusal_5() {
    let next = 1.0 + f64::EPSILON;
    let numbers = [
        1.0, 0.5, -1.0, next, -0.5, -1.0, 1.0, -2.0, 2.0, -2.0, 1.0, 0.0, 0.0,
    ];
    assert_eq!(plan_moves(&records(&[numbers])), "plan 1\n1 refused 5\n");
}

/// The line for the second move with some of its numbers replaced.
fn refused(replaced: &[(usize, f64)]) -> String {
    let mut numbers = four_moves()[1];
    for &(place, value) in replaced {
        numbers[place] = value;
    }
    plan_moves(&records(&[numbers]))
        .lines()
        .nth(1)
        .unwrap()
        .to_string()
}

#[test]
fn refusals_1_to_3_in_order() {
    for place in 0..MOVE_LENGTH {
        for value in [f64::NAN, f64::INFINITY, f64::NEG_INFINITY] {
            assert_eq!(refused(&[(place, value)]), "1 refused 1");
            assert_eq!(
                refused(&[(6, -1.0), (11, -1.0), (place, value)]),
                "1 refused 1"
            );
        }
    }
    for (place, value) in [(6, -5e-324), (7, 5e-324), (8, -1.0), (9, 1.0), (10, -1.0)] {
        assert_eq!(refused(&[(place, value)]), "1 refused 2");
        assert_eq!(refused(&[(11, -1.0), (place, value)]), "1 refused 2");
    }
    for place in [11, 12] {
        for value in [-5e-324, f64::from_bits(1e12f64.to_bits() + 1)] {
            assert_eq!(refused(&[(place, value)]), "1 refused 3");
        }
        assert!(refused(&[(place, 1e12)]).starts_with("1 ok"));
        assert!(refused(&[(place, -0.0)]).starts_with("1 ok"));
    }
}

#[test]
fn refusal_8_ends_the_program() {
    let right = records(&four_moves());
    let (one, two) = (&right[..107], &right[107..214]);
    let mut wrong_length = two.to_vec();
    wrong_length[1] = 104;
    let mut wrong_version = two.to_vec();
    wrong_version[2] = 2;
    let mut nan_in_wrong_version = wrong_version.clone();
    nan_in_wrong_version[3..11].fill(0xFF);
    for second in [
        &two[..1],
        &two[..2],
        &two[..3],
        &two[..106],
        &wrong_length,
        &wrong_version,
        &nan_in_wrong_version,
    ] {
        let lines = plan_moves(&[one, second].concat());
        assert_eq!(
            lines,
            "plan 1\n1 ok 0000000000000000 UP None 0\n2 refused 8\n"
        );
    }
    let lines = plan_moves(&[wrong_version.as_slice(), one].concat());
    assert_eq!(lines, "plan 1\n1 refused 8\n");
    assert_eq!(
        output(PLAN_FULL, &[], &[one, &one[..50]].concat())
            .lines()
            .last(),
        Some("2 refused 8")
    );
}

#[test]
fn plan_full_has_every_number() {
    let lines = output(PLAN_FULL, &[], &records(&four_moves()));
    let lines: Vec<Vec<&str>> = lines
        .lines()
        .map(|line| line.split(' ').collect())
        .collect();
    const PROFILE: usize = 3 + 3 * 7 + 3 * 8 + 5;
    for line in &lines[..3] {
        assert_eq!(line.len(), 3 + PROFILE + 2 * (3 + PROFILE));
    }
    let empty = [
        vec!["UP", "None", "UDDU"],
        vec!["0000000000000000"; PROFILE - 3],
    ]
    .concat();
    let second = &lines[1];
    assert_eq!(
        second[..6],
        ["2", "ok", "4018000000000000", "UP", "Vel", "UDDU"]
    );
    let nothing = [
        vec!["nothing", "0000000000000000", "0000000000000000"],
        empty.clone(),
    ]
    .concat();
    assert_eq!(
        second[3 + PROFILE..],
        [nothing.clone(), nothing.clone()].concat()
    );
    let from = [vec!["from", "4008000000000000", "7FF0000000000000"], empty].concat();
    assert_eq!(lines[2][3 + PROFILE..], [from, nothing].concat());
    assert_eq!(lines[3], ["4", "refused", "4"]);
}

#[test]
fn bad_usage_is_said() {
    for arguments in [
        vec!["--functions"],
        vec!["--functions", "fast"],
        vec!["moves.bin"],
    ] {
        let output = Command::new(PLAN_MOVES)
            .args(arguments)
            .stdin(Stdio::null())
            .output()
            .unwrap();
        assert_eq!(output.status.code(), Some(2));
        let message = String::from_utf8(output.stderr).unwrap();
        assert!(message.contains("usage: plan_moves"), "{message}");
    }
}

/// Six profiles of which the first have these totals; each is marked by its place, counted from 1.
fn profiles_of(totals: &[f64]) -> [Profile; 6] {
    let mut profiles = [Profile::EMPTY; 6];
    for (k, profile) in profiles.iter_mut().enumerate() {
        profile.t_sum[6] = totals.get(k).copied().unwrap_or(0.0);
        profile.pf = (k + 1) as f64;
    }
    profiles
}

#[test]
fn two_totals_near_each_other() {
    let near = select::<Choice>(&profiles_of(&[1.0 + 4.0 * f64::EPSILON, 1.0]), 2).unwrap();
    assert_eq!(
        (near.profile.pf, near.stretches[0].0),
        (1.0, Stretch::Nothing)
    );
    let far = 1.0 + 8.0 * f64::EPSILON;
    let plan = select::<Choice>(&profiles_of(&[1.0, far]), 2).unwrap();
    assert_eq!(
        (plan.profile.pf, plan.stretches[0].0),
        (1.0, Stretch::Between(1.0, far))
    );
}

/// An infinite total makes a stretch between two times, not one from a time on.
#[test]
fn refusals_4_to_7_of_what_is_called_alone() {
    let numbers = [0, 4, 6, 255]
        .map(|count| select::<Choice>(&profiles_of(&[1.0, 2.0, 3.0, 4.0]), count).err());
    assert_eq!(numbers, [Some(4), Some(5), Some(7), Some(7)]);
    let infinite = select::<Choice>(&profiles_of(&[1.0, f64::INFINITY]), 2).unwrap();
    assert_eq!(
        infinite.stretches[0].0,
        Stretch::Between(1.0, f64::INFINITY)
    );
    assert_eq!(infinite.stretches[0].1.pf, 2.0);
    for t in [f64::NAN, f64::INFINITY, f64::NEG_INFINITY] {
        assert_eq!(is_blocked::<Choice>(&Plan::EMPTY, t), Err(6));
    }
    assert_eq!(is_blocked::<Choice>(&Plan::EMPTY, 0.0), Ok(false));
    assert_eq!(is_blocked::<Choice>(&Plan::EMPTY, -5e-324), Ok(true));
}

const BUFFERS: &str = env!("CARGO_BIN_EXE_buffers");
const REPLIES: &str = env!("CARGO_BIN_EXE_replies");

/// A buffers' record: the second move, so many doubles of it, so many for the plan, and a time.
fn buffer_record(move_length: u8, plan_length: u8, t: f64) -> Vec<u8> {
    let mut bytes = vec![move_length, plan_length];
    let numbers = four_moves()[1].into_iter().chain([7.0; 3]).chain([t]);
    bytes.extend(numbers.flat_map(f64::to_be_bytes));
    bytes
}

#[test]
fn buffers_of_right_and_wrong_lengths() {
    assert_eq!((MOVE_LENGTH, PLAN_LENGTH), (13, 166));
    let [right, fits] = [MOVE_LENGTH, PLAN_LENGTH].map(|length| length as u8);
    let calls = [
        (right, fits + 2, 6.0),
        (right, fits + 2, 5.0),
        (right - 1, fits, 6.0),
        (right, fits - 1, 6.0),
        (right, fits, f64::NAN),
        (right - 1, fits, -2.0),
    ];
    let input: Vec<u8> = calls
        .into_iter()
        .flat_map(|(m, n, t)| buffer_record(m, n, t))
        .collect();
    let lines = output(BUFFERS, &[], &[&input, &input[..137]].concat());
    let lines: Vec<&str> = lines.lines().collect();
    assert!(lines[0].starts_with("0 4018000000000000 0000000000000000 3FF0000000000000 "));
    assert!(lines[0].ends_with(" BFF0000000000000 BFF0000000000000 0"));
    assert_eq!(lines[0].split(' ').count(), 1 + PLAN_LENGTH + 2 + 1);
    assert!(lines[1].ends_with(" 1") && lines[4].ends_with(" 6"));
    assert_eq!(lines[2..4], ["255 unchanged 0", "255 unchanged 255"]);
    assert_eq!(lines[5..], ["255 unchanged 1"]);
}

#[test]
fn replies_to_what_is_left() {
    let two = records(&four_moves()[1..2]);
    let mut wrong = two.clone();
    wrong[2] = 2;
    let rests = [
        &two[..],
        &two[..106],
        &[],
        &wrong,
        &[&two[..], &wrong].concat(),
    ];
    let input: Vec<u8> = rests
        .iter()
        .flat_map(|rest| [&[rest.len() as u8], *rest].concat())
        .collect();
    let good = "goes on 1 ok 4018000000000000 UP Vel 0\n";
    let expected = format!("{good}ends 1 refused 8\nends\nends 1 refused 8\n{good}");
    assert_eq!(
        output(REPLIES, &[], &[&input, &[107, 0, 105][..]].concat()),
        expected
    );
}
