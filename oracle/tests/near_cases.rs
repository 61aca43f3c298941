//! Document 01's near cases and the rules of its stand-ins on plain floats. The logarithm's are in `logarithm.rs`.

use oracle::float::{bits, max, min, solve};
use oracle::{run_request, Jet, BLOCK};

#[test]
fn root() {
    assert_eq!(4f64.sqrt(), 2.0);
    assert_eq!(f64::from_bits(1).sqrt(), 2f64.powi(-537));
    assert_eq!((-0.0f64).sqrt().to_bits(), 1 << 63);
}

#[test]
fn jets_of_one_plus_e0() {
    let x = Jet::e0(1.0);
    assert_eq!(x.recip().c[..4], [1.0, -1.0, 1.0, -1.0]);
    assert_eq!(x.sqrt().c[..4], [1.0, 0.5, -0.125, 0.0625]);
    let l = x.ln().c;
    assert_eq!(l[..3], [0.0, 1.0, -0.5]);
    assert_eq!(l[3].to_bits(), 0x3FD5_5555_5555_5555);
}

#[test]
fn max_and_min() {
    let nan = f64::NAN;
    assert_eq!(max(nan, 1.0), 1.0);
    assert_eq!(max(1.0, nan), 1.0);
    assert_eq!(max(1.0, 2.0), 2.0);
    assert_eq!(min(nan, 1.0), 1.0);
    assert_eq!(min(1.0, nan), 1.0);
    assert_eq!(min(1.0, 2.0), 1.0);
    // neither zero is smaller: the first
    assert_eq!(bits(max(-0.0, 0.0)), bits(-0.0));
    assert_eq!(bits(min(0.0, -0.0)), bits(0.0));
}

#[test]
fn two_by_two() {
    assert_eq!(
        solve([[1.0, 2.0], [3.0, 4.0]], [5.0, 11.0]),
        Some([1.0, 2.0])
    );
    assert_eq!(
        solve([[3.0, 4.0], [1.0, 2.0]], [11.0, 5.0]),
        Some([1.0, 2.0])
    );
    assert_eq!(solve([[0.0, 1.0], [-0.0, 1.0]], [1.0, 1.0]), None);
    assert_eq!(solve([[1.0, 2.0], [2.0, 4.0]], [1.0, 1.0]), None);
}

/// One component, propane's coefficients, packed from `offset`, fraction 1.
fn propane(offset: usize, choice: u64, temperature: f64, pressure: f64, start: f64) -> [u8; BLOCK] {
    let mut block = [0; BLOCK];
    let lengths = [24, 0, 8, 32];
    let mut at = offset;
    for (i, length) in lengths.into_iter().enumerate() {
        block[4 * i..4 * i + 2].copy_from_slice(&(at as u16).to_le_bytes());
        block[4 * i + 2..4 * i + 4].copy_from_slice(&(length as u16).to_le_bytes());
        at += length;
    }
    let numbers = [
        369.83f64.to_bits(),
        4248000f64.to_bits(),
        0.1523f64.to_bits(),
        1f64.to_bits(),
        choice,
        temperature.to_bits(),
        pressure.to_bits(),
        start.to_bits(),
    ];
    for (i, x) in numbers.into_iter().enumerate() {
        let place = offset + 8 * i;
        if place + 8 <= BLOCK {
            block[place..place + 8].copy_from_slice(&x.to_le_bytes());
        }
    }
    block
}

fn line(kind: u8, n: u8, block: &[u8; BLOCK]) -> String {
    run_request(kind, n, block).to_string()
}

#[test]
fn refusals() {
    let zeros = "0000000000000000 0000000000000000 0000000000000000 0";
    assert_eq!(line(3, 1, &[0; BLOCK]), format!("3 11 {zeros}"));
    assert_eq!(line(0, 0, &[0; BLOCK]), "2");
    assert_eq!(line(10, 1, &[0; BLOCK]), "2");
    for kind in 7..=9 {
        assert_eq!(line(kind, 1, &[0; BLOCK]), "3");
        assert_eq!(line(kind, 2, &[0; BLOCK]), format!("{kind} 11 {zeros}"));
    }
    assert_eq!(line(1, 0, &[0; BLOCK]), "3");
    assert_eq!(line(1, 9, &[0; BLOCK]), "3");
    assert_eq!(line(6, 8, &[0; BLOCK]), format!("6 11 {zeros}"));
    // offset 15 gives 11, 16 may pass; the last end may be 640 and not 641
    let at = |offset| line(3, 1, &propane(offset, 0, 300.0, 0.0, 0.0));
    assert_eq!(at(15), format!("3 11 {zeros}"));
    // start 0 in kind 3 gives 21
    assert_eq!(at(16), format!("3 21 {zeros}"));
    assert_eq!(at(640 - 64), format!("3 21 {zeros}"));
    assert_eq!(at(641 - 64), format!("3 11 {zeros}"));
    // the start is not looked at with another choice; the choice is refused after it
    let nan = f64::NAN;
    let kind_1 = |choice| line(1, 1, &propane(16, choice, 300.0, 1e-3, nan));
    assert_eq!(kind_1(2), format!("1 15 {zeros}"));
    assert_eq!(kind_1(3), format!("1 16 {zeros}"));
    assert!(kind_1(0).starts_with("1 0 "));
    // only +0 means none in kind 5
    assert_eq!(
        line(5, 1, &propane(16, 0, -0.0, nan, 0.0)),
        format!("5 15 {zeros}")
    );
    assert_eq!(
        line(5, 1, &propane(16, 1, 0.0, nan, 0.0)),
        format!("5 16 {zeros}")
    );
    assert!(line(5, 1, &propane(16, 0, 0.0, nan, 0.0)).starts_with("5 0 "));
    assert!(line(5, 1, &propane(16, 0, 369.0, nan, -0.0)).starts_with("5 27 "));
    // a pressure at or below 0 makes the vapour phase fail, not the job
    assert!(line(2, 1, &propane(16, 9, 200.0, -1e-9, nan)).starts_with("2 0 "));
    assert_eq!(
        line(1, 1, &propane(16, 0, 200.0, 0.0, nan)),
        format!("1 21 {zeros}")
    );
}

/// The generated requests reach every refusal of the caller's, the data's and the equation's.
#[test]
fn generated_requests_are_mixed() {
    let mut census = oracle::show::Census::default();
    for (place, request) in oracle::generate::requests(1, 8000).enumerate() {
        census.count(place as u64, &request);
    }
    assert!(census.refused.contains_key(&2) && census.refused.contains_key(&3));
    for kind in 1..=9u8 {
        let expected: &[u64] = match kind {
            1 => &[0, 11, 12, 13, 14, 15, 16, 17, 21, 22, 27],
            2 => &[0, 11, 12, 13, 14, 15, 16, 17, 22, 24, 27],
            3 => &[0, 11, 12, 13, 14, 15, 16, 17, 21, 22, 27],
            4 => &[0, 11, 12, 13, 14, 15, 16, 17, 22, 25, 27],
            5 => &[0, 11, 12, 13, 15, 16, 22, 23, 27],
            6 => &[0, 11, 12, 13, 15, 16, 22, 26],
            _ => &[0, 11, 12, 13, 14, 15, 16, 17, 22, 23, 27],
        };
        for status in expected {
            assert!(
                census.sealed.contains_key(&(kind, *status)),
                "{kind} {status}"
            );
        }
    }
}

/// The same seed gives the same requests.
#[test]
fn generated_requests_repeat() {
    let twice = || oracle::generate::requests(5, 50).collect::<Vec<_>>();
    assert_eq!(twice(), twice());
}
