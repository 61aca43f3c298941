//! The logarithm of floats: document 01's near cases, the bits of document 02's split (P4) and its bound.

use oracle::float::{bits, ln};
use oracle::random::Rng;
use oracle::vectors::float_line;

const L: u64 = 0x3FE6_2E42_FEFA_39EF;
/// M is halved from here on.
const HALVED: u64 = 0x3FF6_A09E_667F_3BCD;
const NAN: u64 = 0x7FF8_0000_0000_0000;

#[test]
fn near_cases() {
    assert_eq!(ln(1.0).to_bits(), 0);
    assert_eq!(ln(2.0).to_bits(), L);
    assert_eq!(ln(0.5).to_bits(), L | 1 << 63);
}

#[test]
fn special_values() {
    let minus_infinity = f64::NEG_INFINITY.to_bits();
    assert_eq!(ln(0.0).to_bits(), minus_infinity);
    assert_eq!(ln(-0.0).to_bits(), minus_infinity);
    for x in [-5e-324, -1.0, f64::MIN, f64::NEG_INFINITY, f64::NAN] {
        assert_eq!(bits(ln(x)), NAN, "{x}");
    }
    assert_eq!(ln(f64::INFINITY), f64::INFINITY);
}

/// The smallest and the largest subnormal, the smallest normal and the largest float.
#[test]
fn ends_of_the_range() {
    for (x, expected) in [
        (0x0000_0000_0000_0001, 0xC087_4385_446D_71C3),
        (0x000F_FFFF_FFFF_FFFF, 0xC086_232B_DD7A_BCD2),
        (0x0010_0000_0000_0000, 0xC086_232B_DD7A_BCD2),
        (0x7FEF_FFFF_FFFF_FFFF, 0x4086_2E42_FEFA_39EF),
    ] {
        assert_eq!(ln(f64::from_bits(x)).to_bits(), expected, "{x:016X}");
    }
}

/// A power of two, subnormals included, has the float nearest to E times the sum of the two parts.
#[test]
fn powers_of_two() {
    // high and low have 53 digits that end at 2^-53 and at 2^-85
    let sum = (0x0016_2E42_FEE0_0000i128 << 32) + 0x001A_39EF_3579_3C76;
    for e in -1074..=1023i32 {
        // in two halves: powi of a large negative exponent is 1 over infinity
        let x = 2f64.powi(e / 2) * 2f64.powi(e - e / 2);
        // a whole number becomes the nearest float, even on equality
        let expected = (i128::from(e) * sum) as f64 * 2f64.powi(-85);
        assert_eq!(ln(x).to_bits(), expected.to_bits(), "2^{e}");
    }
}

/// Where E * L has other bits. 33 L is 0x2DBF6A2DE4177CF at 2^-53, which is 15/32 of a last place above the float ...0BBE;
/// 33 (high + low) is 0.684 of one above it. For 3, E is 2 and (2 * s) * h the logarithm of 3/4.
#[test]
fn other_bits_than_one_part() {
    let l = f64::from_bits(L);
    let x = 2f64.powi(33);
    assert_eq!((33.0 * l).to_bits(), 0x4036_DFB5_16F2_0BBE);
    assert_eq!(ln(x).to_bits(), 0x4036_DFB5_16F2_0BBF);
    assert_eq!((2.0 * l + ln(0.75)).to_bits(), 0x3FF1_93EA_7AAD_030A);
    assert_eq!(ln(3.0).to_bits(), 0x3FF1_93EA_7AAD_030B);
}

/// One x for each error that another x may hide; the comments have the bits that it gives. Worked in Python's floats.
#[test]
fn bits_of_the_rule() {
    for (x, expected) in [
        // E * low + (E * high + (2 * s) * h): 3FFCAB0BFA2A2003
        (6.0, 0x3FFC_AB0B_FA2A_2002),
        // (E * high + E * low) + (2 * s) * h: 3FFF2272AE325A56
        (7.0, 0x3FFF_2272_AE32_5A57),
        // a term less, h from 1/19: 3FD51F186C80DE3A
        (1.391, 0x3FD5_1F18_6C80_DE3B),
        // a term more, h from 1/23: 3FD3C323852F6CFE
        (1.36177, 0x3FD3_C323_852F_6CFD),
        // not halved at the bound: 3FD62E42FEFA39F1
        (f64::from_bits(HALVED), 0x3FD6_2E42_FEFA_39F0),
        // halved one float below it: 404F04B1B091ED05
        (
            f64::from_bits(HALVED - 1 + (89 << 52)),
            0x404F_04B1_B091_ED04,
        ),
    ] {
        assert_eq!(ln(x).to_bits(), expected, "{x}");
    }
}

/// Whole numbers count 2^-64 from here on.
const ONE: u128 = 1 << 64;

/// Whole numbers at or below and at or above 2 (s + s^3/3 + s^5/5 + ...) for s = p/q of 1/3 at most: 20 terms, each step
/// rounded down in the one and up in the other. The rest is at most s^41/41 * 1/(1 - s^2), less than the s^41 added above.
fn series(p: u128, q: u128) -> (i128, i128) {
    let (mut low, mut high) = (p * ONE / q, (p * ONE).div_ceil(q));
    let (low_square, high_square) = (low * low / ONE, (high * high).div_ceil(ONE));
    let mut sum = (0, 0);
    for k in 0..20 {
        sum.0 += low / (2 * k + 1);
        sum.1 += high.div_ceil(2 * k + 1);
        low = low * low_square / ONE;
        high = (high * high_square).div_ceil(ONE);
    }
    (2 * sum.0 as i128, 2 * (sum.1 + high) as i128)
}

/// E after halving, and whole numbers at or below and at or above the exact logarithm of a finite positive x.
fn enclosure(x: f64) -> (i128, i128, i128) {
    let bits = x.to_bits();
    // x = digits * 2^(e - 52), digits from 2^52 up to 2^53
    let (digits, mut e) = if bits >> 52 == 0 {
        let shift = bits.leading_zeros() - 11;
        (bits << shift, -1022 - i128::from(shift))
    } else {
        (1 << 52 | bits % (1 << 52), i128::from(bits >> 52) - 1023)
    };
    // M = digits/one
    let mut one = 1u64 << 52;
    if digits - one >= HALVED % (1 << 52) {
        (one, e) = (2 * one, e + 1);
    }
    let (low, high) = series(u128::from(digits.abs_diff(one)), u128::from(digits + one));
    let (low, high) = if digits < one {
        (-high, -low)
    } else {
        (low, high)
    };
    let ln_2 = series(1, 3);
    if e < 0 {
        (e, e * ln_2.1 + low, e * ln_2.0 + high)
    } else {
        (e, e * ln_2.0 + low, e * ln_2.1 + high)
    }
}

/// Within (|E| + 1) * 2^-50 of the exact logarithm: random floats of every exponent, the floats beside powers of two and beside
/// the halving bound, and floats at every distance from 1.
#[test]
fn within_the_bound() {
    let mut rng = Rng::new(1);
    let mut inputs = Vec::new();
    for length in 1..=52 {
        inputs
            .extend((0..8).map(|_| (1 << (length - 1)) | (rng.bits() >> 12) % (1 << (length - 1))));
    }
    for exponent in 0..2047u64 {
        let power = exponent << 52;
        inputs.extend((0..4).map(|_| power | rng.bits() >> 12));
        inputs.extend([power.saturating_sub(1), power, power + 1]);
        inputs.extend((0..5).map(|k| power + HALVED % (1 << 52) - 2 + k));
    }
    for shift in 0..52 {
        let distance = rng.bits() >> 12 >> shift;
        inputs.extend([1f64.to_bits() - distance, 1f64.to_bits() + distance]);
    }
    inputs.push(f64::MAX.to_bits());
    inputs.retain(|&bits| bits != 0);
    assert!(inputs.len() > 20_000);
    for bits in inputs {
        let x = f64::from_bits(bits);
        let (e, low, high) = enclosure(x);
        let result = ln(x);
        assert!(result.is_finite(), "{x}");
        // times a power of two is exact
        let scaled = result * ONE as f64;
        let bound = (e.abs() + 1) << (64 - 50);
        assert!(
            scaled.ceil() as i128 - low <= bound && high - scaled.floor() as i128 <= bound,
            "{bits:016X}: {result} is not within {bound} of {low} and {high}"
        );
    }
}

/// Closer to the machine's logarithm than the bound asks for.
#[test]
fn close_to_the_machines() {
    for i in 1..2000 {
        for x in [i as f64 * 0.37, 1.0 + i as f64 * 1e-9, 1e-310 * i as f64] {
            let (ours, theirs) = (ln(x), x.ln());
            assert!(
                (ours - theirs).abs() <= 4e-16 * theirs.abs().max(1.0),
                "{x}"
            );
        }
    }
}

#[test]
fn lines_of_floats() {
    let line = |text| float_line(text).unwrap_or_default();
    assert_eq!(
        line("4000000000000000"),
        "3ff6a09e667f3bcd 3fe62e42fefa39ef"
    );
    assert_eq!(
        line("3FF0000000000000"),
        "3ff0000000000000 0000000000000000"
    );
    assert_eq!(
        line("8000000000000000"),
        "8000000000000000 fff0000000000000"
    );
    assert_eq!(
        line("bff0000000000000"),
        "7ff8000000000000 7ff8000000000000"
    );
    assert_eq!(
        line("fff0000000000001"),
        "7ff8000000000000 7ff8000000000000"
    );
    for text in [
        "",
        "4000",
        "40000000000000000",
        "+400000000000000",
        "400000000000000g",
    ] {
        assert_eq!(float_line(text), None, "{text}");
    }
}
