//! Packets read in Rust, for comparison with the proved reader.
//!
//!     packets packets COUNT
//!
//! Reads packets of 0 to 120 inputs, and prints the sum of some of what they say.

mod packet;

use packet::Packet;
use std::{env, process::ExitCode};

fn main() -> ExitCode {
    let args: Vec<String> = env::args().skip(1).collect();
    let Some(Ok(count)) = args.get(1).map(|a| a.parse::<u32>()) else {
        eprintln!("usage: packets packets COUNT");
        return ExitCode::FAILURE;
    };
    let mut buffer = [7u8; 130];
    buffer[0] = b'H';
    for at in [3, 4, 8, 9] {
        buffer[at] = 0;
    }
    let mut sum = 0u64;
    for k in 0..count {
        let inputs = k as usize % 121;
        buffer[5] = inputs as u8;
        buffer[6] = k as u8;
        if let Ok(p) = Packet::read(&buffer[..10 + inputs], 1_000_000) {
            sum += u64::from(p.first) + u64::from(p.ack) + p.inputs.last().map_or(0, |i| u64::from(*i));
        }
    }
    println!("{sum}");
    ExitCode::SUCCESS
}
