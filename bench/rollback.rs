//! The rollback engine in Rust, for comparison with the proved one: two peers of the court's game and a lossy radio.
//!
//!     rollback rollback TICKS TIMES FILE
//!
//! Plays TIMES games of TICKS ticks, with the inputs of a file of frames. Prints where both peers stand after the last game, and
//! how many events there were and how many frames were played for them, in all games.

#[allow(dead_code)]
mod court;
mod packet;

use court::{Side, State};
use packet::{Fault, MOST_INPUTS, MOST_LENGTH, Packet};
use std::{env, fs, process::ExitCode};

const WINDOW: usize = 20;

/// A packet comes 2 to 17 ticks later, if it is not lost: one of so many is.
const SOONEST: usize = 2;
const LATEST: usize = 17;
const CHANCES: u64 = 8;

const FLIGHTS: usize = 32;
const MOST_FRAMES: usize = 1_000_000;

enum Event<'a> {
    Tick(u8),
    Arrival(&'a [u8]),
}

#[allow(dead_code)]
enum Refusal {
    Input,
    Packet(Fault),
}

enum Outcome {
    /// How many frames were played for it.
    Taken(usize),
    Lost,
    #[allow(dead_code)]
    Refused(Refusal),
}

struct Peer {
    side: Side,
    window: usize,
    own: Vec<u8>,
    other: Vec<u8>,
    /// How many of its own inputs the other acknowledged.
    acked: usize,
    /// The state after frame k is at k modulo their number, one more than the window.
    saved: Vec<State>,
}

impl Peer {
    fn new(side: Side, window: usize) -> Peer {
        Peer {
            side,
            window,
            own: Vec::with_capacity(MOST_FRAMES),
            other: Vec::with_capacity(MOST_FRAMES),
            acked: 0,
            saved: vec![State::start(); window + 1],
        }
    }

    /// A new game, in the same memory.
    fn begin(&mut self) {
        self.own.clear();
        self.other.clear();
        self.acked = 0;
        self.saved[0] = State::start();
    }

    fn confirmed(&self) -> usize {
        self.own.len().min(self.other.len())
    }

    fn state_after(&self, frames: usize) -> State {
        self.saved[frames % self.saved.len()]
    }

    /// The other's input at a frame, or the last that came, or 0.
    fn other_at(&self, frame: usize) -> u8 {
        self.other.get(frame).or(self.other.last()).copied().unwrap_or(0)
    }

    /// Plays on from the state after so many frames, and saves each on the way. Hands back how many it played.
    fn play_from(&mut self, from: usize) -> usize {
        let mut state = self.state_after(from);
        for frame in from..self.own.len() {
            let (own, other) = (self.own[frame], self.other_at(frame));
            let (left, right) = match self.side {
                Side::Left => (own, other),
                Side::Right => (other, own),
            };
            state.advance(left, right);
            let slot = (frame + 1) % self.saved.len();
            self.saved[slot] = state;
        }
        self.own.len() - from
    }

    fn tick(&mut self, input: u8) -> Outcome {
        if input > 15 {
            return Outcome::Refused(Refusal::Input);
        }
        if self.own.len() >= MOST_FRAMES || self.own.len() >= self.other.len() + self.window {
            return Outcome::Lost;
        }
        self.own.push(input);
        Outcome::Taken(self.play_from(self.own.len() - 1))
    }

    /// Takes in the inputs that are new, and the acknowledgement.
    fn join(&mut self, packet: &Packet) {
        if let Some(known) = self.other.len().checked_sub(packet.first as usize) {
            self.other.extend_from_slice(packet.inputs.get(known..).unwrap_or(&[]));
        }
        self.acked = self.acked.max(packet.ack as usize);
    }

    fn receive(&mut self, bytes: &[u8]) -> Outcome {
        let packet = match Packet::read(bytes, self.own.len() as u32) {
            Ok(packet) => packet,
            Err(fault) => return Outcome::Refused(Refusal::Packet(fault)),
        };
        let came = self.other.len();
        let predicted = self.other.last().copied().unwrap_or(0);
        self.join(&packet);
        match (came..self.confirmed()).find(|frame| self.other[*frame] != predicted) {
            Some(wrong) => Outcome::Taken(self.play_from(wrong)),
            None => Outcome::Taken(0),
        }
    }

    fn outgoing(&self) -> Packet<'_> {
        let to = self.own.len().min(self.acked + MOST_INPUTS);
        Packet { first: self.acked as u32, ack: self.other.len() as u32, inputs: &self.own[self.acked..to] }
    }

    /// One event. After a tick, also one that is lost, the packet that the peer sends is written.
    fn happen(&mut self, event: Event, out: &mut [u8; MOST_LENGTH]) -> (Outcome, Option<usize>) {
        let (outcome, told) = match event {
            Event::Tick(input) => (self.tick(input), true),
            Event::Arrival(bytes) => (self.receive(bytes), false),
        };
        let told = told && !matches!(outcome, Outcome::Refused(_));
        let sent = if told { self.outgoing().write(out) } else { None };
        (outcome, sent)
    }
}

/// Numbers by the seed: each state is the one before times a factor, plus another number.
struct Random(u64);

impl Random {
    fn below(&mut self, n: u64) -> u64 {
        self.0 = self.0.wrapping_mul(6_364_136_223_846_793_005).wrapping_add(1_442_695_040_888_963_407);
        (self.0 >> 33) % n
    }

    /// After how many ticks a packet comes; none where it is lost.
    fn delay(&mut self) -> Option<usize> {
        let lost = self.below(CHANCES) == 0;
        let late = self.below((LATEST - SOONEST + 1) as u64) as usize;
        (!lost).then_some(SOONEST + late)
    }
}

/// The packets under way to a machine, by the tick at which they were sent, modulo a number above the latest delay.
struct Air {
    packets: [[u8; MOST_LENGTH]; FLIGHTS],
    lengths: [usize; FLIGHTS],
    /// Of the packets that come at a tick: after how many ticks, a bit for each.
    coming: [u32; FLIGHTS],
}

impl Air {
    fn new() -> Air {
        Air { packets: [[0; MOST_LENGTH]; FLIGHTS], lengths: [0; FLIGHTS], coming: [0; FLIGHTS] }
    }
}

/// A peer, and what its events came to.
struct Machine {
    peer: Peer,
    events: u64,
    frames: u64,
}

impl Machine {
    fn new(side: Side) -> Machine {
        Machine { peer: Peer::new(side, WINDOW), events: 0, frames: 0 }
    }

    fn happen(&mut self, event: Event, out: &mut [u8; MOST_LENGTH]) -> Option<usize> {
        let (outcome, sent) = self.peer.happen(event, out);
        self.events += 1;
        if let Outcome::Taken(frames) = outcome {
            self.frames += frames as u64;
        }
        sent
    }

    /// The packets that come at a tick, in the order in which they were sent.
    fn hear(&mut self, tick: usize, air: &mut Air) {
        let mut out = [0; MOST_LENGTH];
        let coming = std::mem::take(&mut air.coming[tick % FLIGHTS]);
        for delay in (SOONEST..=LATEST).rev() {
            if coming >> delay & 1 == 1 {
                let slot = tick.wrapping_sub(delay) % FLIGHTS;
                self.happen(Event::Arrival(&air.packets[slot][..air.lengths[slot]]), &mut out);
            }
        }
    }

    /// A tick with the input that a file of frames has for the peer's next frame; its packet goes to the other.
    fn tick(&mut self, tick: usize, frames: &[u8], air: &mut Air, random: &mut Random) {
        let frame = frames.get(self.peer.own.len()).copied().unwrap_or(0);
        let input = match self.peer.side {
            Side::Left => frame % 16,
            Side::Right => frame / 16,
        };
        let slot = tick % FLIGHTS;
        air.lengths[slot] = self.happen(Event::Tick(input), &mut air.packets[slot]).unwrap_or(0);
        if let Some(delay) = random.delay() {
            air.coming[(tick + delay) % FLIGHTS] |= 1 << delay;
        }
    }
}

/// A game of so many ticks, at each the left machine first. Both have their inputs from the same file of frames.
fn play_game(left: &mut Machine, right: &mut Machine, ticks: usize, frames: &[u8], random: &mut Random) {
    left.peer.begin();
    right.peer.begin();
    let (mut to_left, mut to_right) = (Air::new(), Air::new());
    for tick in 0..ticks {
        left.hear(tick, &mut to_left);
        left.tick(tick, frames, &mut to_right, random);
        right.hear(tick, &mut to_right);
        right.tick(tick, frames, &mut to_left, random);
    }
}

fn main() -> ExitCode {
    let args: Vec<String> = env::args().skip(1).collect();
    let [_, ticks, times, path] = &args[..] else {
        eprintln!("usage: rollback rollback TICKS TIMES FILE");
        return ExitCode::FAILURE;
    };
    let ticks: usize = ticks.parse().expect("TICKS is a number");
    let times: u32 = times.parse().expect("TIMES is a number");
    let frames = fs::read(path).expect("the file is read");
    let (mut left, mut right) = (Machine::new(Side::Left), Machine::new(Side::Right));
    let mut random = Random(1);
    for _ in 0..times {
        play_game(&mut left, &mut right, ticks, &frames, &mut random);
    }
    for peer in [&left.peer, &right.peer] {
        let score = peer.state_after(peer.own.len()).score;
        println!("beat {} sure {} points {} {}", peer.own.len(), peer.confirmed(), score[0], score[1]);
    }
    println!("events {} frames {}", left.events + right.events, left.frames + right.frames);
    ExitCode::SUCCESS
}
