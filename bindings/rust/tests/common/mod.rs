//! Blends of the tests, blocks by the layout of documents 01 and 02, turns until a job comes out, and random numbers.
#![allow(dead_code)] // each test takes its part

use peng_robinson_board::{Blend, Board, Component, Request, BLOCK_BYTES, BOARD_BYTES};

pub const PROPANE: Component = Component::new(369.83, 4.248e6, 0.1523);
pub const BUTANE: Component = Component::new(425.12, 3.796e6, 0.2002);

pub fn propane() -> Blend {
    Blend::pure(PROPANE)
}

pub fn propane_butane() -> Blend {
    Blend { components: vec![PROPANE, BUTANE], interactions: vec![0.003], fractions: vec![0.6, 0.4] }
}

/// Methane, ethane, propane, butane, pentane, hexane, nitrogen, carbon dioxide.
pub fn eight_components() -> Blend {
    Blend {
        components: vec![
            Component::new(190.564, 4.5992e6, 0.01142),
            Component::new(305.322, 4.8722e6, 0.0995),
            PROPANE,
            BUTANE,
            Component::new(469.7, 3.370e6, 0.2515),
            Component::new(507.6, 3.025e6, 0.3013),
            Component::new(126.192, 3.3958e6, 0.0372),
            Component::new(304.1282, 7.3773e6, 0.22394),
        ],
        interactions: (0..28).map(|i| f64::from(i) / 1000.0).collect(),
        fractions: vec![0.3, 0.2, 0.15, 0.1, 0.05, 0.05, 0.05, 0.1],
    }
}

/// The numbers of a block, to be packed without the proved writer.
#[derive(Clone)]
pub struct Numbers {
    pub coefficients: Vec<f64>,
    pub interactions: Vec<f64>,
    pub fractions: Vec<f64>,
    pub choice: u64,
    pub temperature: f64,
    pub pressure: f64,
    pub start: f64,
}

impl Numbers {
    pub fn of(blend: &Blend, choice: u64, temperature: f64, pressure: f64, start: f64) -> Numbers {
        let mut coefficients = Vec::new();
        for c in &blend.components {
            coefficients.extend([c.critical_temperature, c.critical_pressure, c.acentric_factor]);
        }
        Numbers {
            coefficients,
            interactions: blend.interactions.clone(),
            fractions: blend.fractions.clone(),
            choice,
            temperature,
            pressure,
            start,
        }
    }

    /// Four pairs of offset and length, the parts one after the other from byte 16, zeros after them.
    pub fn block(&self) -> [u8; BLOCK_BYTES] {
        let bytes_of = |floats: &[f64]| -> Vec<u8> {
            let words = floats.iter().map(|float| float.to_bits());
            words.flat_map(u64::to_le_bytes).collect()
        };
        let mut conditions = self.choice.to_le_bytes().to_vec();
        conditions.extend(bytes_of(&[self.temperature, self.pressure, self.start]));
        let parts = [
            bytes_of(&self.coefficients),
            bytes_of(&self.interactions),
            bytes_of(&self.fractions),
            conditions,
        ];
        let mut block = [0; BLOCK_BYTES];
        let mut at = 16;
        for (i, part) in parts.iter().enumerate() {
            block[4 * i..4 * i + 2].copy_from_slice(&(at as u16).to_le_bytes());
            block[4 * i + 2..4 * i + 4].copy_from_slice(&(part.len() as u16).to_le_bytes());
            block[at..at + part.len()].copy_from_slice(part);
            at += part.len();
        }
        block
    }
}

/// A board whose turn, the u64 at 24,576, is 4 and so out of its range.
pub fn damaged_board() -> Board {
    let mut bytes = vec![0; BOARD_BYTES];
    bytes[24_576] = 4;
    Board::from_bytes(bytes)
}

/// The turns until a job comes out that is submitted to a copy of the board.
pub fn turns_taken(board: &Board, queue: u64, request: &Request) -> u64 {
    let mut board = board.clone();
    let ticket = board.submit(queue, request).unwrap();
    let mut turns = 1;
    while board.turn().unwrap().is_none_or(|record| record.ticket() != ticket) {
        turns += 1;
    }
    turns
}

/// Marsaglia's xorshift: the same numbers in every run.
pub struct Random(u64);

impl Random {
    pub fn new(seed: u64) -> Random {
        Random(seed.wrapping_mul(0x9E37_79B9_7F4A_7C15) | 1)
    }

    pub fn bits(&mut self) -> u64 {
        self.0 ^= self.0 << 13;
        self.0 ^= self.0 >> 7;
        self.0 ^= self.0 << 17;
        self.0
    }

    pub fn below(&mut self, limit: u64) -> u64 {
        (self.bits() >> 16) % limit
    }

    pub fn bytes(&mut self, length: usize) -> Vec<u8> {
        (0..length).map(|_| (self.bits() >> 32) as u8).collect()
    }
}
