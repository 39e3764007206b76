//! compare [ROUNDS [SEED]]: gives both sides the same input, set out in full and for ROUNDS rounds at random, and compares answers and
//! lent bytes. Exit status 1 where they differ anywhere.
use std::process::ExitCode;

use compare::ours::OURS;
use compare::runs;

const ROUNDS: u64 = 1_000_000;
const SEED: u64 = 0xB510_548D;

fn main() -> ExitCode {
    let mut words = std::env::args()
        .skip(1)
        .map(|word| word.parse().expect("a number"));
    let rounds = words.next().unwrap_or(ROUNDS);
    let seed = words.next().unwrap_or(SEED);
    println!("against uf-crsf, {rounds} rounds, seed {seed}");
    let (mut cases, mut differing) = (0, 0);
    for (kind, run) in runs::ALL {
        let both = run(&OURS, rounds, seed);
        let (some, other) = (both.cases, both.differing);
        print!("{kind:<42} {some:>10} cases, {other} differ");
        if both.blocks > 0 {
            print!(" ({} blocks)", both.blocks);
        }
        match both.left_behind {
            0 => println!(),
            left => println!(" ({left} of families left behind, held to document 01)"),
        }
        if let Some(first) = both.first {
            println!("  first: {first}");
        }
        cases += some;
        differing += other;
    }
    println!("{cases} cases, {differing} differ");
    match differing {
        0 => ExitCode::SUCCESS,
        _ => ExitCode::FAILURE,
    }
}
