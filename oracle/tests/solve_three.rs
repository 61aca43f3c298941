//! The elimination of three unknowns on cases worked by hand, and its order of operations by cases whose bits tell.

use oracle::float::{bits, norm, solve, solve_three};
use oracle::random::Rng;

type Matrix = [[f64; 3]; 3];

fn solved(m: Matrix, r: [f64; 3]) -> [u64; 3] {
    solve_three(m, r).expect("no zero pivot").map(bits)
}

/// x is the bits of these numbers.
fn gives(m: Matrix, r: [f64; 3], x: [f64; 3]) {
    assert_eq!(solved(m, r), x.map(bits), "{m:?} {r:?}");
}

#[test]
fn triangular() {
    gives(
        [[2.0, 1.0, 1.0], [0.0, 4.0, 2.0], [0.0, 0.0, 8.0]],
        [9.0, 14.0, 24.0],
        [2.0, 2.0, 3.0],
    );
    // the sign of a zero comes of the rules: (0 - 1*0 - 1*0)/-2 is -0
    gives(
        [[-2.0, 1.0, 1.0], [0.0, 1.0, 0.0], [0.0, 0.0, 1.0]],
        [0.0; 3],
        [-0.0, 0.0, 0.0],
    );
}

/// Every order of the rows gives the same bits: the pivots are told by size, not by place.
#[test]
fn rows_change_places() {
    let (m, r) = (
        [[1.0, 2.0, -1.0], [4.0, 1.0, 2.0], [2.0, -3.0, 1.0]],
        [2.0, 12.0, -1.0],
    );
    let x = solved(m, r);
    for (i, expected) in [1.0, 2.0, 3.0].into_iter().enumerate() {
        assert!((f64::from_bits(x[i]) - expected).abs() < 1e-14);
    }
    let orders = [
        [0, 1, 2],
        [0, 2, 1],
        [1, 0, 2],
        [1, 2, 0],
        [2, 0, 1],
        [2, 1, 0],
    ];
    for order in orders {
        assert_eq!(solved(order.map(|i| m[i]), order.map(|i| r[i])), x);
    }
    let mut rng = Rng::new(2);
    for _ in 0..2000 {
        let m: Matrix = std::array::from_fn(|_| std::array::from_fn(|_| rng.between(-1.0, 1.0)));
        let r = std::array::from_fn(|_| rng.between(-1.0, 1.0));
        let x = solved(m, r);
        for order in orders {
            assert_eq!(solved(order.map(|i| m[i]), order.map(|i| r[i])), x);
        }
    }
    // a permutation matrix: every column finds its pivot below
    gives(
        [[0.0, 0.0, 2.0], [4.0, 0.0, 0.0], [0.0, 8.0, 0.0]],
        [6.0, 4.0, 16.0],
        [1.0, 2.0, 3.0],
    );
}

/// The row with the pivot and the diagonal's change places; those between stay. With the others moved down instead, the second
/// column, where sizes are equal, would take another pivot, and the 2^-53 that is rounded away another number.
#[test]
fn rows_between_stay() {
    let tiny = f64::EPSILON / 2.0;
    // the last row comes up; then row 1 stands above row 0 at equal size
    let (m, r) = (
        [[0.0, 1.0, tiny], [0.0, 1.0, 1.0], [1.0, 0.0, 0.0]],
        [1.0, 3.0, 5.0],
    );
    // row 1 is the pivot: x2 = (1 - 3)/(tiny - 1), whose divisor is exact
    let x2 = -2.0 / (tiny - 1.0);
    gives(m, r, [5.0, 3.0 - x2, x2]);
    // with row 0 for a pivot the divisor 1 - tiny has another sign and x1 other bits
    let other = 2.0 / (1.0 - tiny);
    assert_ne!(bits(3.0 - x2), bits(1.0 - tiny * other));
}

/// Of entries equal in size the upper one is the pivot, whatever their signs.
#[test]
fn upper_row_on_equality() {
    let mut rng = Rng::new(8);
    let mut tells = [0; 3];
    for _ in 0..1000 {
        // equal sizes in the first column
        let mut m: Matrix =
            std::array::from_fn(|_| std::array::from_fn(|_| rng.between(-1.0, 1.0)));
        let r: [f64; 3] = std::array::from_fn(|_| rng.between(-1.0, 1.0));
        for row in &mut m[1..] {
            row[0] = rng.pick(&[0.7, -0.7]);
        }
        m[0][0] = 0.7;
        let by_hand = |first: usize, second: usize, last: usize| {
            let (a, b, c) = (m[first], m[second], m[last]);
            let (f, g) = (b[0] / a[0], c[0] / a[0]);
            let b = [b[1] - f * a[1], b[2] - f * a[2], r[second] - f * r[first]];
            let c = [c[1] - g * a[1], c[2] - g * a[2], r[last] - g * r[first]];
            let (b, c) = if c[0].abs() > b[0].abs() {
                (c, b)
            } else {
                (b, c)
            };
            let h = c[0] / b[0];
            let x2 = (c[2] - h * b[2]) / (c[1] - h * b[1]);
            let x1 = (b[2] - b[1] * x2) / b[0];
            let x0 = (r[first] - a[1] * x1 - a[2] * x2) / a[0];
            [x0, x1, x2].map(bits)
        };
        let found = solved(m, r);
        assert_eq!(found, by_hand(0, 1, 2));
        tells[0] += usize::from(found != by_hand(1, 0, 2));
        tells[1] += usize::from(found != by_hand(2, 1, 0));
        // in the second column, beside a first row that changes nothing
        let m = [[1.0, 0.0, 0.0], [0.0, 0.7, m[1][2]], [0.0, -0.7, m[2][2]]];
        let x = |pivot: usize, other: usize| {
            let h = m[other][1] / m[pivot][1];
            let x2 = (r[other] - h * r[pivot]) / (m[other][2] - h * m[pivot][2]);
            let x1 = (r[pivot] - m[pivot][2] * x2) / m[pivot][1];
            [r[0] - 0.0 * x1 - 0.0 * x2, x1, x2].map(bits)
        };
        assert_eq!(solved(m, r), x(1, 2));
        tells[2] += usize::from(x(1, 2) != x(2, 1));
    }
    assert!(tells.iter().all(|&count| count > 100), "{tells:?}");
}

#[test]
fn zero_pivots() {
    for zero in [0.0, -0.0] {
        // first column
        let first = [[zero, 1.0, 2.0], [zero, 3.0, 4.0], [0.0, 5.0, 7.0]];
        assert_eq!(solve_three(first, [1.0, 2.0, 3.0]), None);
        // second: the column vanishes by elimination, or stands there
        let second = [[1.0, 2.0, 3.0], [2.0, 4.0, 5.0], [3.0, 6.0, 1.0]];
        assert_eq!(solve_three(second, [1.0, 2.0, 3.0]), None);
        let second = [[1.0, 0.0, 0.0], [0.0, zero, 5.0], [0.0, zero, 1.0]];
        assert_eq!(solve_three(second, [1.0, 2.0, 3.0]), None);
        // the last one
        let last = [[4.0, 2.0, 3.0], [2.0, 5.0, 5.0], [2.0, 5.0, 5.0]];
        assert_eq!(solve_three(last, [1.0, 2.0, 3.0]), None);
        let last = [[1.0, 0.0, 0.0], [0.0, 1.0, 0.0], [0.0, 0.0, zero]];
        assert_eq!(solve_three(last, [0.0; 3]), None);
    }
    // a pivot of NaN is none of 0, and a lower NaN is not larger
    let nan = [[1.0, 0.0, 0.0], [0.0, f64::NAN, 0.0], [0.0, 1.0, 1.0]];
    assert!(solve_three(nan, [1.0; 3]).is_some_and(|x| x[1].is_nan() && x[2].is_nan()));
    let nan = [[1.0, 0.0, 0.0], [0.0, 1.0, 0.0], [0.0, f64::NAN, 1.0]];
    assert!(solve_three(nan, [1.0; 3]).is_some_and(|x| x[1].is_nan()));
    let smallest = [[5e-324, 0.0, 0.0], [0.0, 5e-324, 0.0], [0.0, 0.0, 5e-324]];
    gives(smallest, [5e-324, -5e-324, 0.0], [1.0, -1.0, 0.0]);
}

/// The known products leave the right side one after the other, ascending.
#[test]
fn order_of_the_products() {
    let m = [[1.0, 1.0, 1.0], [0.0, 1.0, 0.0], [0.0, 0.0, 1.0]];
    // (1e16 - 3) rounds to 1e16 - 4; descending it would be -3
    gives(m, [1e16, 3.0, 1e16], [-4.0, 3.0, 1e16]);
    // one after the other: (1 - 1e16) + 1e16 is 0; both products at once would leave 1
    gives(m, [1.0, 1e16, -1e16], [0.0, 1e16, -1e16]);
    // the pivot divides what is left: (1 - 1/3*3)/3, not 1/3 - ...
    let third = 1.0 / 3.0;
    gives(
        [[3.0, 1.0, 0.1], [0.0, 1.0, 0.0], [0.0, 0.0, 1.0]],
        [1.0, third, 0.7],
        [((1.0 - third) - 0.1 * 0.7) / 3.0, third, 0.7],
    );
}

/// A factor is the lower entry over the pivot, worked out once and then multiplied.
#[test]
fn factors() {
    let mut rng = Rng::new(4);
    let mut tells = [0; 2];
    for _ in 0..1000 {
        // diagonals so large that no rows change places
        let m: Matrix = std::array::from_fn(|i| {
            std::array::from_fn(|j| rng.between(0.1, 1.0) + if i == j { 3.0 } else { 0.0 })
        });
        let r: [f64; 3] = std::array::from_fn(|_| rng.between(-1.0, 1.0));
        let x = |product: &dyn Fn(f64, f64, f64) -> f64| {
            // product(lower, pivot, x) is what an entry loses
            let by = |row: usize, k: usize| m[row][k] - product(m[row][0], m[0][0], m[0][k]);
            let right = |row: usize| r[row] - product(m[row][0], m[0][0], r[0]);
            let (b1, b2, c1, c2) = (by(1, 1), by(1, 2), by(2, 1), by(2, 2));
            let x2 = (right(2) - product(c1, b1, right(1))) / (c2 - product(c1, b1, b2));
            let x1 = (right(1) - b2 * x2) / b1;
            let x0 = ((r[0] - m[0][1] * x1) - m[0][2] * x2) / m[0][0];
            [x0, x1, x2].map(bits)
        };
        let found = solved(m, r);
        assert_eq!(found, x(&|lower, pivot, x| (lower / pivot) * x));
        tells[0] += usize::from(found != x(&|lower, pivot, x| (lower * x) / pivot));
        tells[1] += usize::from(found != x(&|lower, pivot, x| lower * (x / pivot)));
    }
    assert!(tells.iter().all(|&count| count > 100), "{tells:?}");
}

/// Against Cramer's rule, and with an unknown that stands alone against the solve of two.
#[test]
fn other_solutions() {
    let det = |m: Matrix| {
        m[0][0] * (m[1][1] * m[2][2] - m[1][2] * m[2][1])
            - m[0][1] * (m[1][0] * m[2][2] - m[1][2] * m[2][0])
            + m[0][2] * (m[1][0] * m[2][1] - m[1][1] * m[2][0])
    };
    let mut rng = Rng::new(3);
    for _ in 0..2000 {
        let m: Matrix = std::array::from_fn(|_| std::array::from_fn(|_| rng.between(-1.0, 1.0)));
        let r: [f64; 3] = std::array::from_fn(|_| rng.between(-1.0, 1.0));
        let whole = det(m);
        if whole.abs() > 1e-2 {
            let x = solve_three(m, r).unwrap();
            for j in 0..3 {
                let mut with = m;
                (0..3).for_each(|i| with[i][j] = r[i]);
                assert!((x[j] - det(with) / whole).abs() < 1e-10);
            }
        }
        let of_two = [[m[0][0], m[0][1]], [m[1][0], m[1][1]]];
        let alone = [
            [m[0][0], m[0][1], 0.0],
            [m[1][0], m[1][1], 0.0],
            [0.0, 0.0, 1.0],
        ];
        let [x0, x1] = solve(of_two, [r[0], r[1]]).unwrap();
        let x = solve_three(alone, r).unwrap();
        assert_eq!([x[0], x[1]].map(bits), [x0, x1].map(bits));
    }
}

/// The squares add up from the first.
#[test]
fn norm_ascends() {
    assert_eq!(norm([3.0, 4.0]), 5.0);
    assert_eq!(norm([2.0, 3.0, 6.0]), 7.0);
    // 1 is lost beside 2^54 unless the two ones come first
    let large = 134217728.0;
    assert_eq!(norm([large, 1.0, 1.0]), large);
    let mut rng = Rng::new(6);
    let mut tells = 0;
    for _ in 0..1000 {
        let x: [f64; 3] = std::array::from_fn(|_| rng.between(-1.0, 1.0));
        let squares = x.map(|x| x * x);
        assert_eq!(norm(x), ((squares[0] + squares[1]) + squares[2]).sqrt());
        tells += usize::from(norm(x) != (squares[0] + (squares[1] + squares[2])).sqrt());
    }
    assert!(tells > 100, "{tells}");
}
