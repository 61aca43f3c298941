//! Blocks for a kind and N, from the oracle's generator: fitting, of another request, damaged, and no blocks at all.

use oracle::block::{count_fits, kind_fits, lengths, KINDS};
use oracle::generate::requests;
use oracle::random::Rng;
use oracle::BLOCK;

pub type Block = [u8; BLOCK];

pub struct Blocks {
    fitting: Vec<Vec<Block>>,
    all: Vec<Block>,
}

fn place(kind: u64, n: u64) -> usize {
    8 * (kind as usize - 1) + n as usize - 1
}

impl Blocks {
    /// What one chunk of a trial picks from.
    pub fn new(seed: u64, chunk: u64) -> Self {
        let mut fitting = vec![Vec::new(); 8 * KINDS as usize];
        let mut all = Vec::new();
        for request in requests(Rng::new(seed ^ chunk << 32).bits(), 6000) {
            let block: Block = request[2..].try_into().expect("640 bytes");
            let (kind, n) = (request[0].into(), request[1].into());
            if kind_fits(kind) && count_fits(kind, n) {
                fitting[place(kind, n)].push(block);
            }
            all.push(block);
        }
        Blocks { fitting, all }
    }

    /// A block that the generator made for this kind and N, or for another where it made none.
    pub fn fitting(&self, rng: &mut Rng, kind: u64, n: u64) -> Block {
        let inside = kind_fits(kind) && count_fits(kind, n);
        match inside.then(|| &self.fitting[place(kind, n)]) {
            Some(blocks) if !blocks.is_empty() => rng.pick(blocks),
            _ => rng.pick(&self.all),
        }
    }

    /// Mostly one that fits, else a wrong or damaged one.
    pub fn any(&self, rng: &mut Rng, kind: u64, n: u64) -> Block {
        let mut block = self.fitting(rng, kind, n);
        match rng.below(30) {
            0 => block = rng.pick(&self.all),
            1 => block.fill_with(|| rng.bits() as u8),
            2 => block = [0; BLOCK],
            3 => damage_float(rng, &mut block),
            4 => {
                for _ in 0..1 + rng.below(4) {
                    block[rng.below(BLOCK)] = rng.bits() as u8;
                }
            }
            5 => block[rng.below(16)] ^= 1 << rng.below(8),
            _ => {}
        }
        block
    }
}

/// Another float in a part of the block, if its pairs lead to one.
pub fn damage_float(rng: &mut Rng, block: &mut [u8]) {
    let pair = rng.below(4);
    let number = |at: usize| usize::from(u16::from_le_bytes([block[at], block[at + 1]]));
    let (offset, length) = (number(4 * pair), number(4 * pair + 2));
    if length < 8 || length > lengths(8)[0] + lengths(8)[1] {
        return;
    }
    let at = offset + 8 * rng.below(length / 8);
    if at + 8 <= block.len() {
        let x = odd_float(rng);
        block[at..at + 8].copy_from_slice(&x.to_le_bytes());
    }
}

/// The bits of a float: special, any, or one of many NaNs.
pub fn odd_float(rng: &mut Rng) -> u64 {
    match rng.below(4) {
        0 => rng.special().to_bits(),
        1 => rng.bits(),
        2 => rng.between(-1.0, 1.0).to_bits(),
        _ => rng.pick(&[
            0x7ff0_0000_0000_0001,
            0xfff8_0000_0000_0000,
            0x7fff_ffff_ffff_ffff,
            0xffff_ffff_ffff_ffff,
            0x7ff8_0000_0000_0000,
        ]),
    }
}
