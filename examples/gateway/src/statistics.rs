//! Means, deviations, Welch's and Student's t-tests and the comparison of two shares.
use std::collections::BTreeMap;
use std::ops::RangeInclusive;

/// |t| above which side-channel practice takes two sets of times for different (TVLA, test vector leakage
/// assessment).
pub const THRESHOLD: f64 = 4.5;

#[derive(Debug, Clone, Copy, PartialEq)]
pub struct Summary {
    pub mean: f64,
    /// the root of the variance with count - 1 as divisor
    pub deviation: f64,
    pub median: f64,
    /// 999 of 1,000 are not above it
    pub most: f64,
    pub largest: f64,
}

/// Welch's t and its degrees of freedom by Welch and Satterthwaite.
#[derive(Debug, Clone, Copy, PartialEq)]
pub struct Welch {
    pub means: [f64; 2],
    pub t: f64,
    pub degrees: f64,
}

fn mean(numbers: &[f64]) -> f64 {
    numbers.iter().sum::<f64>() / numbers.len() as f64
}

fn variance(numbers: &[f64]) -> f64 {
    let mean = mean(numbers);
    let squares: f64 = numbers.iter().map(|x| (x - mean) * (x - mean)).sum();
    squares / (numbers.len() as f64 - 1.0)
}

fn sorted(numbers: &[f64]) -> Vec<f64> {
    let mut sorted = numbers.to_vec();
    sorted.sort_by(f64::total_cmp);
    sorted
}

/// None of fewer than two numbers.
pub fn summary(numbers: &[f64]) -> Option<Summary> {
    if numbers.len() < 2 {
        return None;
    }
    let sorted = sorted(numbers);
    let at = |place: usize| sorted.get(place).copied();
    Some(Summary {
        mean: mean(numbers),
        deviation: variance(numbers).sqrt(),
        median: (at((sorted.len() - 1) / 2)? + at(sorted.len() / 2)?) / 2.0,
        most: at((sorted.len() * 999).div_ceil(1000) - 1)?,
        largest: at(sorted.len() - 1)?,
    })
}

/// None where either side has fewer than two numbers. Where neither side varies, t is 0 for equal means, else
/// infinite.
pub fn welch(first: &[f64], second: &[f64]) -> Option<Welch> {
    if first.len() < 2 || second.len() < 2 {
        return None;
    }
    let (n, m) = (first.len() as f64, second.len() as f64);
    let (u, v) = (variance(first) / n, variance(second) / m);
    let means = [mean(first), mean(second)];
    let difference = means[0] - means[1];
    let (t, degrees) = if u + v > 0.0 {
        let degrees = (u + v) * (u + v) / (u * u / (n - 1.0) + v * v / (m - 1.0));
        (difference / (u + v).sqrt(), degrees)
    } else if difference == 0.0 {
        (0.0, n + m - 2.0)
    } else {
        (f64::INFINITY.copysign(difference), n + m - 2.0)
    };
    Some(Welch { means, t, degrees })
}

/// Student's t of differences against 0, with one degree of freedom less than there are.
#[derive(Debug, Clone, Copy, PartialEq)]
pub struct Student {
    pub difference: f64,
    pub t: f64,
    pub degrees: f64,
}

/// None of fewer than two differences. Where they do not vary, t is 0 if they are 0, else infinite.
pub fn student(differences: &[f64]) -> Option<Student> {
    if differences.len() < 2 {
        return None;
    }
    let count = differences.len() as f64;
    let (difference, error) = (mean(differences), (variance(differences) / count).sqrt());
    let t = if error > 0.0 {
        difference / error
    } else if difference == 0.0 {
        0.0
    } else {
        f64::INFINITY.copysign(difference)
    };
    Some(Student {
        difference,
        t,
        degrees: count - 1.0,
    })
}

/// Two limits, the same for both sides, which leave out that share of all numbers at either end. Interruptions of
/// milliseconds would otherwise hide differences of nanoseconds.
pub fn limits(first: &[f64], second: &[f64], share: f64) -> Option<RangeInclusive<f64>> {
    let all = sorted(&[first, second].concat());
    let out = (share * all.len() as f64) as usize;
    let most = all.len().checked_sub(out + 1)?;
    Some(*all.get(out)?..=*all.get(most)?)
}

/// Both sides without the numbers outside of their limits.
pub fn cropped(first: &[f64], second: &[f64], share: f64) -> (Vec<f64>, Vec<f64>) {
    let Some(limits) = limits(first, second, share) else {
        return (Vec::new(), Vec::new());
    };
    let between = |numbers: &[f64]| {
        let kept = numbers.iter().filter(|&x| limits.contains(x));
        kept.copied().collect()
    };
    (between(first), between(second))
}

/// Student's t of the differences between the two sides' means in each round, of the numbers within their common
/// limits. Times of one round are not independent of each other, as Welch's t takes them to be: what changes slowly in
/// the machine changes them together. Within a round it meets both sides alike.
pub fn by_rounds(times: [&[f64]; 2], rounds: [&[u64]; 2], share: f64) -> Option<Student> {
    let [first, second] = times;
    let limits = limits(first, second, share)?;
    let means = |side: usize| -> BTreeMap<u64, f64> {
        let mut sums: BTreeMap<u64, (f64, f64)> = BTreeMap::new();
        let pairs = times[side].iter().zip(rounds[side]);
        for (time, &round) in pairs.filter(|(time, _)| limits.contains(time)) {
            let (sum, count) = sums.entry(round).or_default();
            *sum += time;
            *count += 1.0;
        }
        let mean = |(round, (sum, count))| (round, sum / count);
        sums.into_iter().map(mean).collect()
    };
    let (first, second) = (means(0), means(1));
    let difference = |(round, mean): (&u64, &f64)| Some(mean - second.get(round)?);
    let differences: Vec<f64> = first.iter().filter_map(difference).collect();
    student(&differences)
}

/// The z of two counts out of two totals, by their common share; 0 where none or all were counted.
pub fn two_shares(counts: [usize; 2], totals: [usize; 2]) -> f64 {
    let [a, b] = counts.map(|count| count as f64);
    let [n, m] = totals.map(|total| total as f64);
    let common = (a + b) / (n + m);
    let spread = (common * (1.0 - common) * (1.0 / n + 1.0 / m)).sqrt();
    if spread > 0.0 {
        (a / n - b / m) / spread
    } else {
        0.0
    }
}
