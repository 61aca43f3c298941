//! Refusal 17: the limits of the sum, its order of addition, and its place among the data refusals. What passes is
//! decided near the limits by whole numbers in units of 2^-100, of which every fraction there is a multiple, not by floats.

use oracle::block::{adds_up, read_parts, sum_of};
use oracle::generate::{requests, GREATEST_SUM, LEAST_SUM};
use oracle::random::Rng;
use oracle::{run_request, trace_request, BLOCK};

const ONE: u128 = 1 << 100;
const ZEROS: &str = "0000000000000000 0000000000000000 0000000000000000 0";
const PROPANE: [f64; 3] = [369.83, 4248000.0, 0.1523];

/// A request's numbers, the components alike.
#[derive(Clone)]
struct Numbers {
    coefficients: [f64; 3],
    interaction: f64,
    fractions: Vec<f64>,
    choice: u64,
    temperature: f64,
    start: f64,
}

/// Data that pass but for the fractions given; a start of 0 is 21 in kind 3.
fn numbers(fractions: &[f64]) -> Numbers {
    Numbers {
        coefficients: PROPANE,
        interaction: 0.0,
        fractions: fractions.to_vec(),
        choice: 0,
        temperature: 300.0,
        start: 0.0,
    }
}

impl Numbers {
    fn block(&self) -> [u8; BLOCK] {
        let n = self.fractions.len();
        let parts: [Vec<u64>; 4] = [
            self.coefficients.map(f64::to_bits).repeat(n),
            vec![self.interaction.to_bits(); n * (n - 1) / 2],
            self.fractions.iter().map(|x| x.to_bits()).collect(),
            vec![
                self.choice,
                self.temperature.to_bits(),
                1e-3f64.to_bits(),
                self.start.to_bits(),
            ],
        ];
        let mut block = [0; BLOCK];
        let mut at = 16;
        for (i, part) in parts.iter().enumerate() {
            block[4 * i..4 * i + 2].copy_from_slice(&(at as u16).to_le_bytes());
            block[4 * i + 2..4 * i + 4].copy_from_slice(&(8 * part.len() as u16).to_le_bytes());
            for word in part {
                block[at..at + 8].copy_from_slice(&word.to_le_bytes());
                at += 8;
            }
        }
        block
    }

    fn line(&self, kind: u8) -> String {
        run_request(kind, self.fractions.len() as u8, &self.block()).to_string()
    }
}

/// The kinds that read n fractions.
fn kinds(n: usize) -> impl Iterator<Item = u8> {
    (1..=4).chain((n == 2).then_some(7))
}

/// Every kind that reads fractions refuses them with 17 or lets them pass, as told.
fn expect(fractions: &[f64], passes: bool) {
    for kind in kinds(fractions.len()) {
        // a temperature of -1 is 15, after 17
        let bad = Numbers {
            temperature: -1.0,
            ..numbers(fractions)
        };
        let status = if passes { 15 } else { 17 };
        let line = format!("{kind} {status} {ZEROS}");
        assert_eq!(bad.line(kind), line, "{fractions:?}");
        let good = numbers(fractions).line(kind);
        assert_eq!(
            good == format!("{kind} 17 {ZEROS}"),
            !passes,
            "{fractions:?}"
        );
    }
    let line = format!("3 {} {ZEROS}", if passes { 21 } else { 17 });
    assert_eq!(numbers(fractions).line(3), line, "{fractions:?}");
}

// ---- floats as whole numbers of units

/// A float from 2^-48 to 2, or 0, in units.
fn exact(x: f64) -> u128 {
    let bits = x.to_bits();
    if bits == 0 {
        return 0;
    }
    let (mantissa, exponent) = (bits & ((1 << 52) - 1) | 1 << 52, bits >> 52);
    assert!((1023 - 48..=1023).contains(&exponent), "{x:e}");
    u128::from(mantissa) << (exponent - (1075 - 100))
}

/// Rounds to 53 bits, to the even one of two that are equally near.
fn round(units: u128) -> u128 {
    let spare = (128 - units.leading_zeros()).saturating_sub(53);
    let (kept, step) = (units >> spare, 1u128 << spare);
    let rest = units - (kept << spare);
    let up = 2 * rest > step || (2 * rest == step && kept % 2 == 1);
    (kept + u128::from(up)) << spare
}

fn rounded_sum<'a>(fractions: impl Iterator<Item = &'a f64>) -> u128 {
    fractions.fold(0, |sum, &x| round(sum + exact(x)))
}

fn near_one(sum: u128) -> bool {
    sum.abs_diff(ONE) <= exact(1e-9)
}

#[test]
fn tolerance() {
    // the float nearest to 10^-9: its mantissa counts 2^-82
    let mantissa = exact(1e-9) >> 18;
    assert_eq!(mantissa << 18, exact(1e-9));
    let off = (mantissa * 1_000_000_000).abs_diff(1 << 82);
    assert!(2 * off < 1_000_000_000);
}

// ---- the limits

#[test]
fn limits_of_one_fraction() {
    let one = 1f64.to_bits();
    // floats are 2^-53 apart below 1, 2^-52 above it; the last that passes is 9007199 and 4503599 of them away
    for k in 9_007_190..9_007_210u64 {
        let passes = u128::from(k) << 47 <= exact(1e-9);
        assert_eq!(passes, k <= 9_007_199);
        expect(&[f64::from_bits(one - k)], passes);
    }
    for k in 4_503_590..4_503_610u64 {
        let passes = u128::from(k) << 48 <= exact(1e-9);
        assert_eq!(passes, k <= 4_503_599);
        expect(&[f64::from_bits(one + k)], passes);
    }
    for (bits, passes) in [
        (0x3FEF_FFFF_FF76_8FA0, false),
        (0x3FEF_FFFF_FF76_8FA1, true),
        (0x3FF0_0000_0044_B82F, true),
        (0x3FF0_0000_0044_B830, false),
    ] {
        expect(&[f64::from_bits(bits)], passes);
    }
}

#[test]
fn limits_of_blends() {
    let mut rng = Rng::new(17);
    // passing or not, and of each those that would be the other way in descending order or without rounding
    let mut seen = [[0; 3]; 2];
    for i in 0..4000 {
        let n = 2 + i % 7;
        let parts: Vec<f64> = (0..n).map(|_| rng.between(0.05, 1.0)).collect();
        let total: f64 = parts.iter().sum();
        let limit = if rng.once_in(2) { 1e-9 } else { -1e-9 };
        let mut fractions: Vec<f64> = parts.iter().map(|x| x / total * (1.0 + limit)).collect();
        // a few steps of the last fraction, about as far as rounding goes
        let last = fractions[n - 1].to_bits() + rng.below(9) as u64 - 4;
        fractions[n - 1] = f64::from_bits(last);
        let passes = near_one(rounded_sum(fractions.iter()));
        expect(&fractions, passes);
        let of = &mut seen[usize::from(passes)];
        of[0] += 1;
        of[1] += usize::from(near_one(rounded_sum(fractions.iter().rev())) != passes);
        let unrounded = fractions.iter().map(|&x| exact(x)).sum();
        of[2] += usize::from(near_one(unrounded) != passes);
    }
    assert!(seen.iter().flatten().all(|&count| count > 20), "{seen:?}");
}

#[test]
fn ascending_order() {
    for fractions in [[0.41, 0.38, 0.210000001], [0.13, 0.3, 0.569999999]] {
        let [x, y, z] = fractions;
        assert!(!near_one(rounded_sum([x, y, z].iter())));
        assert!(near_one(rounded_sum([z, y, x].iter())));
        expect(&[x, y, z], false);
        expect(&[z, y, x], true);
    }
}

#[test]
fn sums_far_from_the_limits() {
    let blend = [0.2, 0.5, 0.3];
    let times = |factor: f64| blend.map(|x| x * factor);
    expect(&blend, true);
    for factor in [1.0 + 1e-10, 1.0 - 1e-10, 1.0 + 9e-10, 1.0 - 9e-10] {
        expect(&times(factor), true);
    }
    for factor in [100.0, 1000.0, 0.01, 2.0, 1e300, 1e-300] {
        expect(&times(factor), false);
    }
    for off in [1e-8, 5e-9, 1.1e-9] {
        expect(&times(1.0 + off), false);
        expect(&times(1.0 - off), false);
    }
    // nothing, one missing, one too many
    for n in 1..=8 {
        expect(&vec![0.0; n], false);
        expect(&vec![1.0; n], n == 1);
    }
    expect(&[0.2, 0.5, 0.0], false);
    expect(&[1.0, 0.5, 0.0], false);
    // sums that overflow, at the first addition and at the last, and one that does not
    expect(&[f64::MAX; 2], false);
    expect(&[f64::MAX; 8], false);
    expect(
        &[1.0, f64::MAX / 2.0, f64::MAX / 2.0, f64::MAX / 2.0],
        false,
    );
    expect(&[f64::MAX], false);
    // what rounding takes away does not count
    expect(&[1.0, 5e-324], true);
    expect(&[0.0, 1.0, 0.0], true);
}

// ---- the place of 17

#[test]
fn after_14() {
    for fractions in [
        // these add up to 1
        [1.0, -0.0],
        [-0.0, 1.0],
        [1.25, -0.25],
        // these do not, and 14 is first
        [f64::NAN, 1.0],
        [100.0, f64::NAN],
        [f64::INFINITY, 0.0],
        [f64::INFINITY, f64::NEG_INFINITY],
        [100.0, -0.0],
    ] {
        for kind in kinds(2) {
            let line = format!("{kind} 14 {ZEROS}");
            assert_eq!(numbers(&fractions).line(kind), line, "{fractions:?}");
        }
    }
}

/// All data refusals at once, mended one after the other.
#[test]
fn order_of_the_data_refusals() {
    for kind in 1..=7u8 {
        let reads_fractions = kind != 5 && kind != 6;
        // co-volumes of 1e-309, whose maximum density overflows
        let mut data = Numbers {
            coefficients: [1e-7, 1e308, f64::NAN],
            interaction: f64::INFINITY,
            fractions: vec![60.0, -0.0],
            choice: 9,
            temperature: f64::NAN,
            start: 1e-3,
        };
        let expect = |data: &Numbers, status: u64| {
            assert_eq!(data.line(kind), format!("{kind} {status} {ZEROS}"));
        };
        let mut pairs = data.block();
        pairs[0] = 15;
        let line = run_request(kind, 2, &pairs).to_string();
        assert_eq!(line, format!("{kind} 11 {ZEROS}"));
        expect(&data, 12);
        data.coefficients[2] = 0.1;
        expect(&data, 13);
        data.interaction = 0.0;
        if reads_fractions {
            expect(&data, 14);
            data.fractions[1] = 40.0;
            expect(&data, 17);
            data.fractions = vec![0.6, 0.4];
        }
        expect(&data, 15);
        data.temperature = 300.0;
        expect(&data, 16);
        // the choice alone, then the maximum density alone
        data.choice = 1;
        expect(&data, 16);
        data.coefficients = PROPANE;
        let status = data.line(kind);
        assert!(status.starts_with(&format!("{kind} 0 ")), "{status}");
        data.choice = 9;
        match kind {
            2 | 3 | 7 => assert_eq!(data.line(kind), status),
            _ => expect(&data, 16),
        }
    }
}

#[test]
fn kinds_5_and_6_read_no_fractions() {
    for kind in [5, 6] {
        let line = numbers(&[0.5, 0.5]).line(kind);
        assert!(line.starts_with(&format!("{kind} 0 ")), "{line}");
        for fractions in [
            [50.0, 50.0],
            [0.0, 0.0],
            [0.5, 0.0],
            [f64::MAX, f64::MAX],
            [f64::NAN, -1.0],
        ] {
            assert_eq!(numbers(&fractions).line(kind), line);
        }
    }
}

#[test]
fn no_evaluations() {
    for kind in kinds(2) {
        let block = numbers(&[20.0, 80.0]).block();
        let (answer, made) = trace_request(kind, 2, &block);
        assert_eq!(answer.to_string(), format!("{kind} 17 {ZEROS}"));
        assert!(made.is_empty());
    }
}

// ---- the generated requests

/// Both limits and the floats beside them, of one fraction and of blends, and sums that pass in one order only.
#[test]
fn generated_requests_reach_the_limits() {
    let sums = [
        LEAST_SUM.next_down(),
        LEAST_SUM,
        LEAST_SUM.next_up(),
        GREATEST_SUM.next_down(),
        GREATEST_SUM,
        GREATEST_SUM.next_up(),
    ];
    let (mut at, mut by_order) = ([[0; 2]; 6], [0; 2]);
    for request in requests(1, 40_000) {
        let (kind, n) = (request[0], usize::from(request[1]));
        let block: &[u8; BLOCK] = request[2..].try_into().unwrap();
        if !(1..=8).contains(&n) || !kinds(n).any(|k| k == kind) {
            continue;
        }
        let Some(parts) = read_parts(n, block) else {
            continue;
        };
        let mut fractions = parts.fractions;
        if fractions.iter().any(|x| x.is_sign_negative()) {
            continue;
        }
        let sum = sum_of(&fractions);
        if let Some(i) = sums.iter().position(|&s| s == sum) {
            at[i][usize::from(n > 1)] += 1;
            fractions.reverse();
            if adds_up(sum_of(&fractions)) != adds_up(sum) {
                by_order[usize::from(adds_up(sum))] += 1;
            }
        }
    }
    assert!(at.iter().flatten().all(|&count| count > 0), "{at:?}");
    assert!(by_order.iter().all(|&count| count > 0), "{by_order:?}");
}
