//! Pictures of the court in Rust, by the same rules, for the programs that are compared with the proved ones.

use crate::court::State;

pub const WIDTH: usize = 160;
pub const LENGTH: usize = 19200;

const GLYPHS: [[u8; 5]; 10] = [
    [7, 5, 5, 5, 7],
    [2, 6, 2, 2, 7],
    [7, 1, 7, 4, 7],
    [7, 1, 7, 1, 7],
    [5, 5, 7, 1, 1],
    [7, 4, 7, 1, 7],
    [7, 4, 7, 5, 7],
    [7, 1, 1, 1, 1],
    [7, 5, 7, 5, 7],
    [7, 5, 7, 1, 7],
];

/// The dots whose middles are nearer to a position than half a side.
fn run(position: i32, half: i32) -> std::ops::Range<usize> {
    (position - half + 128) as usize / 256..(position + half + 127) as usize / 256
}

fn fill(picture: &mut [u8], x: i32, y: i32, half_x: i32, half_y: i32, byte: u8) {
    for j in run(y, half_y) {
        picture[WIDTH * j..WIDTH * (j + 1)][run(x, half_x)].fill(byte);
    }
}

fn digit(picture: &mut [u8], left: usize, points: u8) {
    for (k, bits) in GLYPHS[usize::from(points)].iter().enumerate() {
        for i in 0..3 {
            if bits >> (2 - i) & 1 == 1 {
                picture[WIDTH * (4 + k) + left + i] = 4;
            }
        }
    }
}

pub fn draw(s: &State, picture: &mut [u8]) {
    for (j, row) in picture.chunks_exact_mut(WIDTH).take(120).enumerate() {
        row.fill(0);
        row[79] = 1;
        row[80] = 1;
        if !(40..80).contains(&j) {
            row[0] = 1;
            row[159] = 1;
        }
    }
    digit(picture, 70, s.score[0]);
    digit(picture, 87, s.score[1]);
    fill(picture, s.ball.x, s.ball.y, 512, 512, 2);
    fill(picture, s.left.x, s.left.y, 512, 2048, 3);
    fill(picture, s.right.x, s.right.y, 512, 2048, 3);
}
