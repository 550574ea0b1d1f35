//! Plans the two axes of a move, both moving at its ends, in mm, and prints when both can arrive.

use girnhusk::{arrival, plan, Arrival, Move, Stretch};

const NAMES: [&str; 2] = ["carriage", "cross slide"];

fn moves() -> [Move; 2] {
    let carriage = Move {
        p0: 400.0,
        v0: 175.0,
        a0: -900.0,
        pf: 330.0,
        vf: -575.0,
        af: -2100.0,
        v_max: 800.0,
        v_min: -800.0,
        a_max: 3000.0,
        a_min: -3000.0,
        j_max: 3500.0,
        ..Move::default()
    };
    let cross_slide = Move {
        v0: 500.0,
        pf: 280.0,
        vf: 100.0,
        v_max: 500.0,
        v_min: -500.0,
        a_max: 1500.0,
        a_min: -1500.0,
        j_max: 2000.0,
        ..Move::default()
    };
    [carriage, cross_slide]
}

fn main() -> Result<(), Box<dyn std::error::Error>> {
    let mut plans = Vec::new();
    for (name, mv) in NAMES.iter().zip(moves()) {
        let planned = plan(&mv)?;
        println!("{name}: duration {:.6} s", planned.duration());
        for interval in [planned.a(), planned.b()] {
            if let Stretch::Between { left, right } = interval.stretch {
                println!("  blocked from {left:.6} to {right:.6} s");
            }
        }
        plans.push(planned);
    }
    let Arrival { time, axis } = arrival(&plans)?;
    println!(
        "both arrive at {time:.6} s, set by axis {axis}, the {}",
        NAMES[axis]
    );
    Ok(())
}
