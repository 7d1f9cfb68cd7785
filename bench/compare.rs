//! Runs two commands in turn, many times each, and compares how fast they do the same work.
//!
//!     compare UNITS NAME RUNS A B ARG..
//!
//! A and B are programs that do UNITS units of work, called NAME, when they are called with ARG... Both have to print the same.
//! Prints units a second of both, by the median of the times, and A's share of B's.

use std::{env, process::Command, process::ExitCode, time::Instant};

fn run(program: &str, args: &[String]) -> (f64, Vec<u8>) {
    let begin = Instant::now();
    let output = Command::new(program).args(args).output().expect("the program runs");
    let seconds = begin.elapsed().as_secs_f64();
    assert!(output.status.success(), "{program} failed");
    (seconds, output.stdout)
}

fn median(times: &mut [f64]) -> f64 {
    times.sort_by(f64::total_cmp);
    times[times.len() / 2]
}

fn main() -> ExitCode {
    let args: Vec<String> = env::args().skip(1).collect();
    let [units, name, runs, a, b, rest @ ..] = &args[..] else {
        eprintln!("usage: compare UNITS NAME RUNS A B ARG..");
        return ExitCode::FAILURE;
    };
    let units: f64 = units.parse().expect("UNITS is a number");
    let runs: usize = runs.parse().expect("RUNS is a number");
    let (mut of_a, mut of_b) = (Vec::new(), Vec::new());
    for _ in 0..runs.max(1) {
        let (time_a, text_a) = run(a, rest);
        let (time_b, text_b) = run(b, rest);
        if text_a != text_b {
            eprintln!("{a} and {b} print different things");
            return ExitCode::FAILURE;
        }
        of_a.push(time_a);
        of_b.push(time_b);
    }
    let (time_a, time_b) = (median(&mut of_a), median(&mut of_b));
    println!("{a}: {:.1} million {name} a second", units / time_a / 1e6);
    println!("{b}: {:.1} million {name} a second", units / time_b / 1e6);
    println!("ratio {:.2}", time_b / time_a);
    ExitCode::SUCCESS
}
