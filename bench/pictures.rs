//! Pictures of the court in Rust, for comparison with the proved ones.
//!
//!     pictures pictures COUNT
//!
//! Plays frames and draws the picture after each, and prints the sum of one byte of every picture.

#[allow(dead_code)]
mod court;
#[allow(dead_code)]
mod picture;

use court::State;
use std::{env, process::ExitCode};

fn main() -> ExitCode {
    let args: Vec<String> = env::args().skip(1).collect();
    let (Some(what), Some(Ok(count))) = (args.first(), args.get(1).map(|a| a.parse::<u32>())) else {
        eprintln!("usage: pictures pictures COUNT");
        return ExitCode::FAILURE;
    };
    assert_eq!(what, "pictures");
    let mut s = State::start();
    let mut drawn = vec![0u8; picture::LENGTH];
    let mut sum = 0u64;
    for frame in 0..count {
        if s.score.contains(&9) {
            s = State::start();
        } else {
            s.advance((frame / 7 % 16) as u8, (frame / 11 % 16) as u8);
        }
        picture::draw(&s, &mut drawn);
        sum += u64::from(drawn[frame as usize * 7919 % picture::LENGTH]);
    }
    println!("{sum}");
    ExitCode::SUCCESS
}
