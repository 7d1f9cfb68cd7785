//! The court in Rust, by the same rules, for the programs that are compared with the proved ones.

const TOP_SPEED: i32 = 6144;

const LONGEST_STEP: u32 = 768;

#[derive(Clone, Copy)]
pub struct Ball {
    pub x: i32,
    pub y: i32,
    pub dx: i32,
    pub dy: i32,
}

#[derive(Clone, Copy)]
pub struct Paddle {
    pub x: i32,
    pub y: i32,
}

#[derive(Clone, Copy)]
pub enum Side {
    Left,
    Right,
}

/// What is heard of a frame.
#[derive(Clone, Copy)]
pub enum Cue {
    Nothing,
    Paddle,
    Wall,
    Point,
}

/// What sounds in a frame: the cue that began it, and how many frames ago.
#[derive(Clone, Copy)]
pub struct Tone {
    pub kind: Cue,
    pub age: u8,
}

impl Tone {
    const SILENT: Tone = Tone { kind: Cue::Nothing, age: 0 };

    fn after(self, cue: Cue) -> Tone {
        let frames = match self.kind {
            Cue::Nothing => 0,
            Cue::Paddle | Cue::Wall => 6,
            Cue::Point => 30,
        };
        match cue {
            Cue::Nothing if self.age + 1 < frames => Tone { age: self.age + 1, ..self },
            Cue::Nothing => Tone::SILENT,
            kind => Tone { kind, age: 0 },
        }
    }
}

#[derive(Clone, Copy)]
pub struct State {
    pub ball: Ball,
    pub left: Paddle,
    pub right: Paddle,
    pub score: [u8; 2],
    pub wait: u8,
    pub tone: Tone,
}

fn step(back: bool, forth: bool) -> i32 {
    512 * (i32::from(forth) - i32::from(back))
}

fn inward(side: Side, by: i32) -> i32 {
    match side {
        Side::Left => by,
        Side::Right => -by,
    }
}

impl Paddle {
    fn moved(self, input: u8, lo: i32, hi: i32) -> Paddle {
        Paddle {
            x: (self.x + step(input & 1 != 0, input & 2 != 0)).clamp(lo, hi),
            y: (self.y + step(input & 4 != 0, input & 8 != 0)).clamp(2048, 28672),
        }
    }
}

impl Ball {
    fn moved(self, by_x: i32, by_y: i32, cue: Cue) -> (Ball, Cue) {
        let (x, y) = (self.x + by_x, self.y + by_y);
        if y < 512 {
            (Ball { x, y: 512, dy: self.dy.abs(), ..self }, Cue::Wall)
        } else if y > 30208 {
            (Ball { x, y: 30208, dy: -self.dy.abs(), ..self }, Cue::Wall)
        } else {
            (Ball { x, y, ..self }, cue)
        }
    }

    fn meets(self, p: Paddle) -> bool {
        (self.x - p.x).abs() < 1024 && (self.y - p.y).abs() < 2560
    }

    fn struck(self, side: Side, p: Paddle) -> Ball {
        Ball {
            x: p.x + inward(side, 1024),
            y: self.y,
            dx: inward(side, (self.dx.abs() + 32).min(TOP_SPEED)),
            dy: (self.dy + (self.y - p.y) / 16).clamp(-TOP_SPEED, TOP_SPEED),
        }
    }

    /// Both paddles look at the ball as it has moved; `before` is the ball before the step.
    fn met(self, left: Paddle, right: Paddle, before: Ball, cue: Cue) -> (Ball, Cue) {
        if self.meets(left) {
            if self.meets(right) {
                (Ball { dx: -self.dx, dy: self.dy, ..before }, Cue::Paddle)
            } else {
                (self.struck(Side::Left, left), Cue::Paddle)
            }
        } else if self.meets(right) {
            (self.struck(Side::Right, right), Cue::Paddle)
        } else {
            (self, cue)
        }
    }

    fn stepped(self, by_x: i32, by_y: i32, left: Paddle, right: Paddle, cue: Cue) -> (Ball, Cue) {
        let (moved, cue) = self.moved(by_x, by_y, cue);
        moved.met(left, right, self, cue)
    }

    /// All steps of a frame, and what is heard of them. One step is as long as the velocity.
    fn flown(self, left: Paddle, right: Paddle) -> (Ball, Cue) {
        let count = self.dx.abs().max(self.dy.abs()).unsigned_abs().div_ceil(LONGEST_STEP).max(1);
        if count == 1 {
            return self.stepped(self.dx, self.dy, left, right, Cue::Nothing);
        }
        let length = |total: i32, i: u32| {
            let total = total.unsigned_abs();
            (total / count + u32::from(i < total % count)) as i32
        };
        (0..count).fold((self, Cue::Nothing), |(ball, cue), i| {
            let by_x = ball.dx.signum() * length(self.dx, i);
            let by_y = ball.dy.signum() * length(self.dy, i);
            ball.stepped(by_x, by_y, left, right, cue)
        })
    }
}

impl State {
    pub fn start() -> State {
        State {
            ball: Ball { x: 20480, y: 15360, dx: 512, dy: 256 },
            left: Paddle { x: 2048, y: 15360 },
            right: Paddle { x: 38912, y: 15360 },
            score: [0, 0],
            wait: 60,
            tone: Tone::SILENT,
        }
    }

    fn meet_end(&mut self, side: Side) -> Cue {
        if (10240..=20480).contains(&self.ball.y) {
            match side {
                Side::Left => self.score[1] += 1,
                Side::Right => self.score[0] += 1,
            }
            let even = (self.score[0] + self.score[1]) % 2 == 0;
            self.ball = Ball { x: 20480, y: 15360, dx: inward(side, 512), dy: if even { 256 } else { -256 } };
            self.wait = 60;
            Cue::Point
        } else {
            self.ball.x = match side {
                Side::Left => 512,
                Side::Right => 40448,
            };
            self.ball.dx = inward(side, self.ball.dx.abs());
            Cue::Wall
        }
    }

    pub fn advance(&mut self, left: u8, right: u8) {
        let cue = self.play_on(left, right);
        self.tone = self.tone.after(cue);
    }

    /// The court alone, and what is heard of the frame.
    fn play_on(&mut self, left: u8, right: u8) -> Cue {
        if self.score[0] >= 9 || self.score[1] >= 9 {
            return Cue::Nothing;
        }
        self.left = self.left.moved(left, 512, 19968);
        self.right = self.right.moved(right, 20992, 40448);
        if self.wait > 0 {
            self.wait -= 1;
            return Cue::Nothing;
        }
        let (ball, cue) = self.ball.flown(self.left, self.right);
        self.ball = ball;
        if ball.x < 512 {
            self.meet_end(Side::Left)
        } else if ball.x > 40448 {
            self.meet_end(Side::Right)
        } else {
            cue
        }
    }
}
