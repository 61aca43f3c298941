//! The writer of request blocks: from the numbers of a filing to 640 bytes with the parts packed from 16 and zeros after
//! them, its refusals, and the filing that stands in a block.

use crate::block::{check, count_fits, kind_fits, lengths, read_parts, BLOCK};
use crate::float;

/// What a supplier files: kind, N and the numbers of the four parts.
#[derive(Clone, Debug)]
pub struct Filing {
    pub kind: u64,
    pub n: u64,
    /// critical temperature, critical pressure and acentric factor, component by component
    pub coefficients: Vec<f64>,
    /// k_ij by rows, i below j
    pub interactions: Vec<f64>,
    pub fractions: Vec<f64>,
    pub choice: u64,
    pub temperature: f64,
    pub pressure: f64,
    pub start: f64,
}

/// N where it fits the kind. The whole number is tested before any length is worked out from it.
fn components(kind: u64, n: u64) -> Option<usize> {
    count_fits(kind, n).then_some(n as usize)
}

/// Floats as words. All NaNs are one value, so they get one pattern.
fn words(floats: &[f64]) -> Vec<u64> {
    floats.iter().map(|&x| float::bits(x)).collect()
}

impl Filing {
    /// The coefficients by 0, the interactions by 1, the fractions by 2.
    pub fn list_mut(&mut self, which: usize) -> &mut Vec<f64> {
        match which {
            0 => &mut self.coefficients,
            1 => &mut self.interactions,
            _ => &mut self.fractions,
        }
    }

    /// The words of the four parts in the block's order. The choice is no float and keeps its bits.
    fn parts(&self) -> [Vec<u64>; 4] {
        let mut conditions = vec![self.choice];
        conditions.extend(words(&[self.temperature, self.pressure, self.start]));
        [
            words(&self.coefficients),
            words(&self.interactions),
            words(&self.fractions),
            conditions,
        ]
    }
}

/// One part after the other from 16, each with its pair of offset and length; zeros elsewhere.
fn pack(parts: &[Vec<u64>; 4]) -> [u8; BLOCK] {
    let mut block = [0; BLOCK];
    let mut at = 16;
    for (i, part) in parts.iter().enumerate() {
        let length = 8 * part.len();
        block[4 * i..4 * i + 2].copy_from_slice(&(at as u16).to_le_bytes());
        block[4 * i + 2..4 * i + 4].copy_from_slice(&(length as u16).to_le_bytes());
        for (place, word) in block[at..at + length].chunks_mut(8).zip(part) {
            place.copy_from_slice(&word.to_le_bytes());
        }
        at += length;
    }
    block
}

/// The block for a buffer of this length, or the first refusal.
fn block_for(filing: &Filing, buffer_length: usize) -> Result<[u8; BLOCK], u64> {
    if !kind_fits(filing.kind) {
        return Err(2);
    }
    let n = components(filing.kind, filing.n).ok_or(3u64)?;
    if buffer_length != BLOCK {
        return Err(8);
    }
    let parts = filing.parts();
    let fits = |(part, length): (&Vec<u64>, usize)| 8 * part.len() == length;
    if !parts.iter().zip(lengths(n)).all(fits) {
        return Err(11);
    }
    // the reader itself tells the refusals after 11
    let block = pack(&parts);
    check(filing.kind as u8, n, &block)?;
    Ok(block)
}

/// Writes the block and answers 0, or answers the refusal and leaves the buffer as it is.
pub fn write_block(filing: &Filing, buffer: &mut [u8]) -> u64 {
    match block_for(filing, buffer.len()) {
        Ok(block) => {
            buffer.copy_from_slice(&block);
            0
        }
        Err(refusal) => refusal,
    }
}

/// What stands in the four parts of a block, used or not; `None` where a pair is wrong or N does not fit the kind.
pub fn filing_of(kind: u64, n: u64, block: &[u8; BLOCK]) -> Option<Filing> {
    let parts = read_parts(components(kind, n)?, block)?;
    Some(Filing {
        kind,
        n,
        coefficients: parts
            .coefficients
            .iter()
            .flat_map(|r| [r.tc, r.pc, r.acentric_factor])
            .collect(),
        interactions: parts.interactions,
        fractions: parts.fractions,
        choice: parts.choice,
        temperature: parts.temperature,
        pressure: parts.pressure,
        start: parts.start,
    })
}
