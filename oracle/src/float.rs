//! Document 01's stand-ins on plain floats: logarithm, with document 02's split, `max`, `min`, sign tests, norm, the 2 by 2
//! solve and document 02's 3 by 3 one. All NaNs count as one value, so a NaN's sign is never looked at.

/// The one NaN as it is printed.
pub const NAN_BITS: u64 = 0x7FF8_0000_0000_0000;

/// The bits of a float, with one pattern for every NaN.
pub fn bits(x: f64) -> u64 {
    if x.is_nan() {
        NAN_BITS
    } else {
        x.to_bits()
    }
}

/// `max` gives the second number if the first is NaN or smaller, else the first.
pub fn max(first: f64, second: f64) -> f64 {
    if first.is_nan() || first < second {
        second
    } else {
        first
    }
}

/// `min` mirrors `max`.
pub fn min(first: f64, second: f64) -> f64 {
    if first.is_nan() || first > second {
        second
    } else {
        first
    }
}

/// The Rust's `is_sign_negative`; the one NaN counts as without a sign.
pub fn is_sign_negative(x: f64) -> bool {
    !x.is_nan() && x.is_sign_negative()
}

/// The Rust's `is_sign_positive`.
pub fn is_sign_positive(x: f64) -> bool {
    !is_sign_negative(x)
}

/// ln 2 in two parts (document 02, P4): the high one ends in 21 zero bits, so that E times it is exact.
const LN_2_HIGH: f64 = f64::from_bits(0x3FE6_2E42_FEE0_0000);
const LN_2_LOW: f64 = f64::from_bits(0x3DEA_39EF_3579_3C76);

/// Document 01's logarithm with document 02's split (P4). x = M * 2^E with M in [1, 2); if M is at least the float below,
/// M is halved and E one more. With s = (M - 1)/(M + 1) and h the series 1 + s^2/3 + ... + s^20/21, from its last term:
/// E * high + (E * low + (2 * s) * h).
pub fn ln(x: f64) -> f64 {
    if x.is_nan() {
        return x;
    }
    if x == 0.0 {
        return f64::NEG_INFINITY;
    }
    if x < 0.0 {
        return f64::NAN;
    }
    if x == f64::INFINITY {
        return x;
    }
    let (mut m, mut e) = mantissa_exponent(x);
    if m >= f64::from_bits(0x3FF6_A09E_667F_3BCD) {
        m *= 0.5;
        e += 1;
    }
    let s = (m - 1.0) / (m + 1.0);
    let z = s * s;
    let mut h = 1.0 / 21.0;
    for k in (0..=9).rev() {
        h = h * z + 1.0 / f64::from(2 * k + 1);
    }
    let e = f64::from(e);
    e * LN_2_HIGH + (e * LN_2_LOW + (2.0 * s) * h)
}

/// M in [1, 2) and E with x = M * 2^E, for a finite positive x.
fn mantissa_exponent(x: f64) -> (f64, i32) {
    // A subnormal times 2^54 is exact and normal.
    let (x, shift) = if x < f64::MIN_POSITIVE {
        (x * 18014398509481984.0, 54)
    } else {
        (x, 0)
    };
    let exponent = (x.to_bits() >> 52) as i32 - 1023;
    let fraction = x.to_bits() & 0x000F_FFFF_FFFF_FFFF;
    (
        f64::from_bits(0x3FF0_0000_0000_0000 | fraction),
        exponent - shift,
    )
}

/// Root of the sum of squares, which ascends from the first.
pub fn norm<const N: usize>(x: [f64; N]) -> f64 {
    let mut sum = x[0] * x[0];
    for x in &x[1..] {
        sum += x * x;
    }
    sum.sqrt()
}

/// Solves m * x = r. The lower row comes up if its first entry is larger in size; `None` for a zero pivot.
pub fn solve(m: [[f64; 2]; 2], r: [f64; 2]) -> Option<[f64; 2]> {
    let (m, r) = if m[1][0].abs() > m[0][0].abs() {
        ([m[1], m[0]], [r[1], r[0]])
    } else {
        (m, r)
    };
    if m[0][0] == 0.0 {
        return None;
    }
    let f = m[1][0] / m[0][0];
    let pivot = m[1][1] - f * m[0][1];
    if pivot == 0.0 {
        return None;
    }
    let x1 = (r[1] - f * r[0]) / pivot;
    let x0 = (r[0] - m[0][1] * x1) / m[0][0];
    Some([x0, x1])
}

/// Solves m * x = r by elimination. In each column the largest entry in size at or below the diagonal is the pivot, the upper
/// one of equals, and its row changes places with the diagonal's; `None` for a zero pivot. The last unknown comes first.
pub fn solve_three(mut m: [[f64; 3]; 3], mut r: [f64; 3]) -> Option<[f64; 3]> {
    for column in 0..3 {
        let mut pivot = column;
        for row in column + 1..3 {
            if m[row][column].abs() > m[pivot][column].abs() {
                pivot = row;
            }
        }
        m.swap(column, pivot);
        r.swap(column, pivot);
        if m[column][column] == 0.0 {
            return None;
        }
        for row in column + 1..3 {
            let f = m[row][column] / m[column][column];
            for k in column + 1..3 {
                m[row][k] -= f * m[column][k];
            }
            r[row] -= f * r[column];
        }
    }
    let mut x = [0.0; 3];
    for i in (0..3).rev() {
        let mut rest = r[i];
        for k in i + 1..3 {
            rest -= m[i][k] * x[k];
        }
        x[i] = rest / m[i][i];
    }
    Some(x)
}
