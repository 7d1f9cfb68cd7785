//! A recording as a program in Rust, for comparison with the proved one: the same file, the same lines of output.
//!
//!     replay FILE BEAT         reads and checks a recording, and prints the score after a frame and the picture
//!     replay make FRAMES OUT   writes the recording of a file of frames, with window 20

mod court;
mod picture;

use court::{Ball, Cue, Paddle, State, Tone};
use std::{env, fs, process::ExitCode};

const MARK: [u8; 3] = *b"REC";
const EVERY: usize = 600;
const STATE_BYTES: usize = 64;

struct Recording<'a> {
    #[allow(dead_code)]
    window: u8,
    frames: &'a [u8],
    states: &'a [u8],
}

#[allow(dead_code)]
#[derive(Debug)]
enum Fault {
    NoMark(usize),
    CutShort(usize),
    Window,
    TooMany,
    WrongState(usize),
    TooLong(usize),
}

fn state_bytes(s: &State) -> [u8; STATE_BYTES] {
    let mut bytes = [0; STATE_BYTES];
    let numbers = [s.ball.x, s.ball.y, s.ball.dx, s.ball.dy, s.left.x, s.left.y, s.right.x, s.right.y];
    for (place, number) in bytes.chunks_exact_mut(4).zip(numbers) {
        place.copy_from_slice(&number.to_le_bytes());
    }
    bytes[32..37].copy_from_slice(&[s.score[0], s.score[1], s.wait, s.tone.kind as u8, s.tone.age]);
    bytes
}

fn cue_of(code: u8) -> Cue {
    match code {
        1 => Cue::Paddle,
        2 => Cue::Wall,
        3 => Cue::Point,
        _ => Cue::Nothing,
    }
}

fn state_in(bytes: &[u8]) -> State {
    let number = |at: usize| i32::from_le_bytes(bytes[at..at + 4].try_into().unwrap());
    State {
        ball: Ball { x: number(0), y: number(4), dx: number(8), dy: number(12) },
        left: Paddle { x: number(16), y: number(20) },
        right: Paddle { x: number(24), y: number(28) },
        score: [bytes[32], bytes[33]],
        wait: bytes[34],
        tone: Tone { kind: cue_of(bytes[35]), age: bytes[36] },
    }
}

fn play(state: &mut State, frames: &[u8]) {
    for frame in frames {
        state.advance(frame % 16, frame / 16);
    }
}

/// The states after every 600th of the frames.
fn saved_states(frames: &[u8]) -> impl Iterator<Item = [u8; STATE_BYTES]> + '_ {
    let mut state = State::start();
    frames.chunks_exact(EVERY).map(move |part| {
        play(&mut state, part);
        state_bytes(&state)
    })
}

fn difference(xs: &[u8], ys: &[u8]) -> Option<usize> {
    xs.iter().zip(ys).position(|(x, y)| x != y)
}

impl<'a> Recording<'a> {
    fn read(bytes: &'a [u8]) -> Result<Recording<'a>, Fault> {
        if let Some(at) = difference(bytes, &MARK) {
            return Err(Fault::NoMark(at));
        }
        let cut = Fault::CutShort(bytes.len());
        let Some(&window) = bytes.get(3) else {
            return Err(cut);
        };
        if !(1..=60).contains(&window) {
            return Err(Fault::Window);
        }
        let Some(count) = bytes.get(4..8) else {
            return Err(cut);
        };
        let count = u32::from_le_bytes(count.try_into().unwrap()) as usize;
        if count > 1_000_000 {
            return Err(Fault::TooMany);
        }
        let Some((frames, states)) = bytes[8..].split_at_checked(count) else {
            return Err(cut);
        };
        let at = 8 + count;
        for (j, (saved, due)) in states.chunks(STATE_BYTES).zip(saved_states(frames)).enumerate() {
            if let Some(wrong) = difference(saved, &due) {
                return Err(Fault::WrongState(at + STATE_BYTES * j + wrong));
            }
        }
        let due = STATE_BYTES * (count / EVERY);
        if states.len() < due {
            return Err(cut);
        }
        if states.len() > due {
            return Err(Fault::TooLong(at + due));
        }
        Ok(Recording { window, frames, states })
    }

    /// The state after a frame, from the last that is saved before it; none beyond the last frame.
    fn state_after(&self, frame: usize) -> Option<State> {
        let played = self.frames.get(..frame)?;
        let marks = frame / EVERY;
        let mut state = match marks.checked_sub(1) {
            None => State::start(),
            Some(last) => state_in(&self.states[STATE_BYTES * last..STATE_BYTES * marks]),
        };
        play(&mut state, &played[EVERY * marks..]);
        Some(state)
    }
}

fn make(frames: &[u8]) -> Vec<u8> {
    let mut bytes = MARK.to_vec();
    bytes.push(20);
    bytes.extend((frames.len() as u32).to_le_bytes());
    bytes.extend_from_slice(frames);
    bytes.extend(saved_states(frames).flatten());
    bytes
}

/// A line for each row, a character for each dot.
fn text_of(picture: &[u8]) -> String {
    let mut text = String::with_capacity(picture.len() + picture.len() / picture::WIDTH);
    for row in picture.chunks(picture::WIDTH) {
        text.extend(row.iter().map(|dot| char::from(b".|o#*"[usize::from(*dot)])));
        text.push('\n');
    }
    text
}

fn show(bytes: &[u8], frame: usize) {
    let recording = Recording::read(bytes).expect("it is a recording");
    let state = recording.state_after(frame).expect("it has so many frames");
    let mut picture = vec![0; picture::LENGTH];
    picture::draw(&state, &mut picture);
    println!("beat {frame} of {} points {} {}", recording.frames.len(), state.score[0], state.score[1]);
    print!("{}", text_of(&picture));
}

fn main() -> ExitCode {
    let args: Vec<String> = env::args().skip(1).collect();
    match args.iter().map(String::as_str).collect::<Vec<_>>()[..] {
        ["make", path, out] => {
            let frames = fs::read(path).expect("the file is read");
            fs::write(out, make(&frames)).expect("the file is written");
        }
        [path, frame] => {
            let bytes = fs::read(path).expect("the file is read");
            show(&bytes, frame.parse().expect("BEAT is a number"));
        }
        _ => {
            eprintln!("usage: replay FILE BEAT | replay make FRAMES OUT");
            return ExitCode::FAILURE;
        }
    }
    ExitCode::SUCCESS
}
