//! The plain game in Rust, for comparison with the proved one: the same file, the same line of output.
//!
//!     plain FILE                 plays FILE and prints the state after the last frame
//!     plain make SPEED FILE      writes a file of a million frames in which nobody scores, so that every frame is played, and in
//!                                which the ball is no faster than SPEED in x and in y after each 500th: 768 for frames of one
//!                                step, 6144 for frames of up to eight

mod court;

use court::{Paddle, State};
use std::{env, fs, process::ExitCode};

fn play(frames: &[u8]) -> State {
    let mut s = State::start();
    for f in frames {
        s.advance(f % 16, f / 16);
    }
    s
}

/// Both paddles follow the ball, with noise. A stretch of frames in which somebody scores is played anew with other noise,
/// and where that does not help the stretches before it too; so is one after which the ball is too fast.
fn make(speed: i32) -> Vec<u8> {
    let mut seed = 1u32;
    let mut random = move || {
        seed = seed.wrapping_mul(1664525).wrapping_add(1013904223);
        (seed >> 24) as u8
    };
    let mut key = |s: &State, p: Paddle| match s.ball.y - p.y {
        1201.. => 8 | random() & 3,
        ..-1200 => 4 | random() & 3,
        _ => random() & 15,
    };
    let mut stretches: Vec<(State, Vec<u8>)> = Vec::new();
    while stretches.len() < 2000 {
        let from = stretches.last().map_or(State::start(), |s| s.0);
        let found = (0..20).find_map(|_| {
            let (mut s, mut frames) = (from, Vec::new());
            for _ in 0..500 {
                let (a, b) = (key(&s, s.left), key(&s, s.right));
                s.advance(a, b);
                frames.push(a | b << 4);
            }
            let slow = s.ball.dx.abs() <= speed && s.ball.dy.abs() <= speed;
            (s.score == from.score && slow).then_some((s, frames))
        });
        match found {
            Some(stretch) => stretches.push(stretch),
            None => stretches.truncate(stretches.len().saturating_sub(3)),
        }
    }
    stretches.into_iter().flat_map(|s| s.1).collect()
}

fn main() -> ExitCode {
    let args: Vec<String> = env::args().skip(1).collect();
    match args.iter().map(String::as_str).collect::<Vec<_>>()[..] {
        ["make", speed, path] => {
            let frames = make(speed.parse().expect("SPEED is a number"));
            fs::write(path, frames).expect("the file is written")
        }
        [path] => {
            let frames = fs::read(path).expect("the file is read");
            let s = play(&frames);
            print!("beat {} ball {} {} way {} {} ", frames.len(), s.ball.x, s.ball.y, s.ball.dx, s.ball.dy);
            print!("bars {} {} {} {} ", s.left.x, s.left.y, s.right.x, s.right.y);
            println!("points {} {} wait {}", s.score[0], s.score[1], s.wait);
        }
        _ => {
            eprintln!("usage: plain FILE | plain make SPEED FILE");
            return ExitCode::FAILURE;
        }
    }
    ExitCode::SUCCESS
}
