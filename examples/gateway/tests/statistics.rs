//! Statistics on small numbers, worked by hand.
use gateway::report::Findings;
use gateway::statistics::{by_rounds, cropped, student, summary, two_shares, welch};

fn close(a: f64, b: f64) -> bool {
    (a - b).abs() < 1e-9
}

/// Means 3 and 6, variances 5/2 and 10: t = (3 - 6) / sqrt(1/2 + 2) and
/// df = (1/2 + 2)^2 / ((1/2)^2 / 4 + 2^2 / 4) = 6.25 / 1.0625 = 100 / 17.
#[test]
fn welch_by_hand() {
    let first = [1.0, 2.0, 3.0, 4.0, 5.0];
    let second = [2.0, 4.0, 6.0, 8.0, 10.0];
    let test = welch(&first, &second).unwrap();
    assert_eq!(test.means, [3.0, 6.0]);
    assert!(close(test.t, -3.0 / 2.5f64.sqrt()));
    assert!(close(test.degrees, 100.0 / 17.0));
    let other = welch(&second, &first).unwrap();
    assert!(close(other.t, -test.t) && close(other.degrees, test.degrees));
    assert_eq!(welch(&first, &first).unwrap().t, 0.0);
}

/// Unequal counts: means 2 and 5, variances 1 and 20/3, so 1/3 and 5/3: t = -3 / sqrt(2),
/// df = 4 / ((1/9) / 2 + (25/9) / 3) = 4 / (53/54) = 216 / 53.
#[test]
fn welch_of_unequal_counts() {
    let test = welch(&[1.0, 2.0, 3.0], &[2.0, 4.0, 6.0, 8.0]).unwrap();
    assert!(close(test.t, -3.0 / 2f64.sqrt()));
    assert!(close(test.degrees, 216.0 / 53.0));
}

#[test]
fn welch_without_variance_or_numbers() {
    assert_eq!(welch(&[1.0, 1.0], &[1.0, 1.0]).unwrap().t, 0.0);
    assert_eq!(
        welch(&[1.0, 1.0], &[2.0, 2.0]).unwrap().t,
        f64::NEG_INFINITY
    );
    assert_eq!(welch(&[3.0, 3.0], &[2.0, 2.0]).unwrap().t, f64::INFINITY);
    assert_eq!(welch(&[1.0], &[1.0, 2.0]), None);
    assert_eq!(welch(&[1.0, 2.0], &[]), None);
}

#[test]
fn summary_by_hand() {
    let s = summary(&[2.0, 4.0, 4.0, 4.0, 5.0, 5.0, 7.0, 9.0]).unwrap();
    assert_eq!((s.mean, s.median, s.most, s.largest), (5.0, 4.5, 9.0, 9.0));
    assert!(close(s.deviation, (32.0f64 / 7.0).sqrt()));
    assert_eq!(summary(&[3.0, 1.0, 2.0]).unwrap().median, 2.0);
    let thousand: Vec<f64> = (1..=1000).rev().map(f64::from).collect();
    assert_eq!(summary(&thousand).unwrap().most, 999.0);
    assert_eq!(summary(&[1.0]), None);
}

/// Of twenty numbers a twentieth at either end is one: 1 and 1000 go, each from its side.
#[test]
fn cropping_takes_the_same_limits_for_both() {
    let first: Vec<f64> = (1..=10).map(f64::from).collect();
    let mut second: Vec<f64> = (11..=19).map(f64::from).collect();
    second.push(1000.0);
    let (a, b) = cropped(&first, &second, 0.05);
    assert_eq!((a.first(), a.len()), (Some(&2.0), 9));
    assert_eq!((b.last(), b.len()), (Some(&19.0), 9));
    // equal numbers stay together
    assert_eq!(
        cropped(&[5.0; 10], &[5.0; 10], 0.05),
        (vec![5.0; 10], vec![5.0; 10])
    );
    assert_eq!(cropped(&[], &[], 0.05), (vec![], vec![]));
}

/// 30 and 10 of 100 each: common share 0.2, so z = 0.2 / sqrt(0.2 · 0.8 · 0.02) = 0.2 / sqrt(0.0032).
#[test]
fn shares_by_hand() {
    assert!(close(
        two_shares([30, 10], [100, 100]),
        0.2 / 0.0032f64.sqrt()
    ));
    assert_eq!(two_shares([0, 0], [100, 100]), 0.0);
    assert_eq!(two_shares([100, 100], [100, 100]), 0.0);
}

/// Times that differ in one turn of the span only are found there.
#[test]
fn the_turn_that_differs_is_found() {
    let turns: Vec<u64> = (0..3000).map(|i| 1 + i % 30).collect();
    let rounds: Vec<u64> = (0..3000).map(|i| i / 300).collect();
    let noise = |i: u64| (i * 7919 % 101) as f64;
    let first: Vec<f64> = (0..3000).map(noise).collect();
    let second: Vec<f64> = (0..3000)
        .map(|i| noise(i + 30) + if i % 30 == 8 { 400.0 } else { 0.0 })
        .collect();
    let found = Findings::of(
        "times",
        [&first, &second],
        [&turns, &turns],
        [&rounds, &rounds],
    )
    .unwrap();
    assert_eq!(found.turn, 9);
    assert!(found.at_turn.t < -4.5 && found.largest().welch > 4.5);
    let same = Findings::of(
        "times",
        [&first, &first],
        [&turns, &turns],
        [&rounds, &rounds],
    )
    .unwrap();
    assert_eq!((same.largest().welch, same.largest().rounds), (0.0, 0.0));
    assert!(Findings::of("times", [&[], &[]], [&[], &[]], [&[], &[]]).is_none());
}

/// Mean 2, variance 1 of three: t = 2 / sqrt(1/3).
#[test]
fn student_by_hand() {
    let test = student(&[1.0, 2.0, 3.0]).unwrap();
    assert_eq!((test.difference, test.degrees), (2.0, 2.0));
    assert!(close(test.t, 12f64.sqrt()));
    assert_eq!(student(&[0.0, 0.0]).unwrap().t, 0.0);
    assert_eq!(student(&[-1.0, -1.0]).unwrap().t, f64::NEG_INFINITY);
    assert_eq!(student(&[1.0]), None);
}

/// Three rounds, each 100 later than the one before, with differences 1, 2 and 3 in their means: the drift does not hide
/// them as it does from Welch's t. A round of one side alone is left out, and so are numbers beyond the limits.
#[test]
fn rounds_take_the_drift_away() {
    let first = [10.0, 12.0, 110.0, 112.0, 210.0, 212.0];
    let second = [9.0, 11.0, 108.0, 110.0, 207.0, 209.0];
    let rounds = [0, 0, 1, 1, 2, 2];
    let test = by_rounds([&first, &second], [&rounds, &rounds], 0.0).unwrap();
    assert_eq!((test.difference, test.degrees), (2.0, 2.0));
    assert!(close(test.t, 12f64.sqrt()));
    assert!(welch(&first, &second).unwrap().t < 0.1);
    let alone = [0, 0, 1, 1, 2, 3];
    let test = by_rounds([&first, &second], [&alone, &rounds], 0.0).unwrap();
    assert_eq!(test.degrees, 2.0);
    assert!(close(test.difference, 5.0 / 3.0));
    // the least and the largest of twelve go: 9 and 212
    let test = by_rounds([&first, &second], [&rounds, &rounds], 0.1).unwrap();
    assert!(close(test.difference, (0.0 + 2.0 + 2.0) / 3.0));
    assert!(by_rounds([&[], &[]], [&[], &[]], 0.05).is_none());
}
