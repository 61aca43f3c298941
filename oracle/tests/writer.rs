//! The writer of request blocks: whole blocks made by hand from document 01's words, each refusal and its place in the
//! order, and that the reader finds in a written block what was filed.

use oracle::block::{check, count_fits, kind_fits, pairs, Job};
use oracle::filings::{filings, FilingCensus};
use oracle::generate::requests;
use oracle::{
    filing_of, run_request, write_block, Filing, PengRobinson, PengRobinsonRecord, BLOCK,
};
use std::collections::{BTreeMap, BTreeSet};

/// The refusals as the writer tests them.
const ORDER: [u64; 10] = [2, 3, 8, 11, 12, 13, 14, 17, 15, 16];

const NAN: u64 = 0x7FF8_0000_0000_0000;

/// The bytes of the buffer afterwards, or the refusal; the buffer is then as it was.
fn write(filing: &Filing, length: usize) -> Result<Vec<u8>, u64> {
    let mut buffer = vec![0xA5; length];
    match write_block(filing, &mut buffer) {
        0 => Ok(buffer),
        refusal => {
            assert!(buffer.iter().all(|&byte| byte == 0xA5), "{filing:?}");
            Err(refusal)
        }
    }
}

fn answer(filing: &Filing) -> u64 {
    write(filing, BLOCK).err().unwrap_or(0)
}

fn written(filing: &Filing) -> [u8; BLOCK] {
    let block = write(filing, BLOCK).unwrap_or_else(|refusal| panic!("{refusal}: {filing:?}"));
    block.try_into().expect("640 bytes")
}

/// k_ij, no two alike.
fn k(i: u64, j: u64) -> f64 {
    (10 * i + j) as f64 / 1000.0
}

/// Numbers that every kind accepts, no two alike.
fn distinct(kind: u64, n: u64) -> Filing {
    let mut filing = Filing {
        kind,
        n,
        coefficients: vec![],
        interactions: vec![],
        fractions: vec![],
        choice: u64::from(n > 1),
        temperature: 310.5,
        pressure: 1.5e-3,
        start: 2.5e-3,
    };
    for i in 0..n {
        let x = i as f64;
        filing
            .coefficients
            .extend([300.0 + x, 4e6 + 1e5 * x, 0.15 + x / 128.0]);
        filing.interactions.extend((i + 1..n).map(|j| k(i, j)));
        filing
            .fractions
            .push((i + 1) as f64 / (n * (n + 1) / 2) as f64);
    }
    filing
}

/// Zeros but for the pairs' bytes and the words at their places, which are all different.
fn block(pairs: [u8; 16], words: &[(usize, u64)]) -> [u8; BLOCK] {
    let different: BTreeSet<u64> = words.iter().map(|&(_, word)| word).chain([0]).collect();
    assert_eq!(different.len(), words.len() + 1);
    let mut block = [0; BLOCK];
    block[..16].copy_from_slice(&pairs);
    for &(at, word) in words {
        block[at..at + 8].copy_from_slice(&word.to_le_bytes());
    }
    block
}

// ---- whole blocks

#[test]
fn block_of_one() {
    let filing = Filing {
        kind: 3,
        n: 1,
        coefficients: vec![369.83, 4248000.0, 0.1523],
        interactions: vec![],
        fractions: vec![1.0],
        choice: 0x0807_0605_0403_0201,
        temperature: 300.5,
        pressure: -0.001,
        start: 0.0045,
    };
    #[rustfmt::skip]
    let head = [
        // offset and length of coefficients, interactions, fractions, conditions
        16, 0, 24, 0, 40, 0, 0, 0, 40, 0, 8, 0, 48, 0, 32, 0,
        // critical temperature, critical pressure, acentric factor
        0xE1, 0x7A, 0x14, 0xAE, 0x47, 0x1D, 0x77, 0x40,
        0x00, 0x00, 0x00, 0x00, 0x70, 0x34, 0x50, 0x41,
        0x74, 0x24, 0x97, 0xFF, 0x90, 0x7E, 0xC3, 0x3F,
        // fraction
        0x00, 0x00, 0x00, 0x00, 0x00, 0x00, 0xF0, 0x3F,
        // choice, temperature, pressure, start
        0x01, 0x02, 0x03, 0x04, 0x05, 0x06, 0x07, 0x08,
        0x00, 0x00, 0x00, 0x00, 0x00, 0xC8, 0x72, 0x40,
        0xFC, 0xA9, 0xF1, 0xD2, 0x4D, 0x62, 0x50, 0xBF,
        0x3B, 0xDF, 0x4F, 0x8D, 0x97, 0x6E, 0x72, 0x3F,
    ];
    let mut expected = [0; BLOCK];
    expected[..80].copy_from_slice(&head);
    assert_eq!(written(&filing), expected);
}

#[test]
fn block_of_two() {
    let filing = Filing {
        kind: 2,
        n: 2,
        coefficients: vec![301.0, 4.1e6, 0.11, 302.0, 4.2e6, 0.12],
        interactions: vec![0.013],
        fractions: vec![0.25, 0.75],
        choice: u64::MAX - 1,
        temperature: 310.0,
        pressure: 1e-3,
        start: f64::INFINITY,
    };
    let expected = block(
        [16, 0, 48, 0, 64, 0, 8, 0, 72, 0, 16, 0, 88, 0, 32, 0],
        &[
            (16, 301f64.to_bits()),
            (24, 4.1e6f64.to_bits()),
            (32, 0.11f64.to_bits()),
            (40, 302f64.to_bits()),
            (48, 4.2e6f64.to_bits()),
            (56, 0.12f64.to_bits()),
            (64, 0.013f64.to_bits()),
            (72, 0.25f64.to_bits()),
            (80, 0.75f64.to_bits()),
            (88, u64::MAX - 1),
            (96, 310f64.to_bits()),
            (104, 1e-3f64.to_bits()),
            (112, 0x7FF0_0000_0000_0000),
        ],
    );
    assert_eq!(written(&filing), expected);
}

#[test]
fn block_of_three() {
    let filing = Filing {
        kind: 1,
        n: 3,
        coefficients: vec![301.0, 4.1e6, 0.11, 302.0, 4.2e6, 0.12, 303.0, 4.3e6, 0.13],
        // 0 and 1, 0 and 2, 1 and 2
        interactions: vec![0.001, 0.002, 0.012],
        fractions: vec![0.125, 0.25, 0.625],
        choice: 2,
        temperature: 310.0,
        pressure: 1.5e-3,
        start: 5e-3,
    };
    let expected = block(
        [16, 0, 72, 0, 88, 0, 24, 0, 112, 0, 24, 0, 136, 0, 32, 0],
        &[
            (16, 301f64.to_bits()),
            (24, 4.1e6f64.to_bits()),
            (32, 0.11f64.to_bits()),
            (40, 302f64.to_bits()),
            (48, 4.2e6f64.to_bits()),
            (56, 0.12f64.to_bits()),
            (64, 303f64.to_bits()),
            (72, 4.3e6f64.to_bits()),
            (80, 0.13f64.to_bits()),
            (88, 0.001f64.to_bits()),
            (96, 0.002f64.to_bits()),
            (104, 0.012f64.to_bits()),
            (112, 0.125f64.to_bits()),
            (120, 0.25f64.to_bits()),
            (128, 0.625f64.to_bits()),
            (136, 2),
            (144, 310f64.to_bits()),
            (152, 1.5e-3f64.to_bits()),
            (160, 5e-3f64.to_bits()),
        ],
    );
    assert_eq!(written(&filing), expected);
}

/// Rows begin at `rows`; from four components on they differ from columns.
fn block_by_rows(
    filing: &Filing,
    pairs: [u8; 16],
    rows: &[usize],
    after: [usize; 2],
) -> [u8; BLOCK] {
    let [fractions, conditions] = after;
    let mut words = vec![
        (conditions, filing.choice),
        (conditions + 8, filing.temperature.to_bits()),
        (conditions + 16, filing.pressure.to_bits()),
        (conditions + 24, filing.start.to_bits()),
    ];
    for i in 0..filing.n {
        let at = i as usize;
        for (c, x) in filing.coefficients[3 * at..3 * at + 3].iter().enumerate() {
            words.push((16 + 24 * at + 8 * c, x.to_bits()));
        }
        for j in i + 1..filing.n {
            words.push((rows[at] + 8 * (j - i - 1) as usize, k(i, j).to_bits()));
        }
        words.push((fractions + 8 * at, filing.fractions[at].to_bits()));
    }
    block(pairs, &words)
}

#[test]
fn block_of_four() {
    let filing = distinct(1, 4);
    let expected = block_by_rows(
        &filing,
        [16, 0, 96, 0, 112, 0, 48, 0, 160, 0, 32, 0, 192, 0, 32, 0],
        &[112, 136, 152, 160],
        [160, 192],
    );
    assert_eq!(written(&filing), expected);
}

#[test]
fn block_of_eight() {
    let filing = distinct(6, 8);
    let expected = block_by_rows(
        &filing,
        // 208, 224; 432, 64; 496, 32
        [
            16, 0, 192, 0, 208, 0, 224, 0, 0xB0, 1, 64, 0, 0xF0, 1, 32, 0,
        ],
        &[208, 264, 312, 352, 384, 408, 424, 432],
        [432, 496],
    );
    assert_eq!(written(&filing), expected);
}

/// The same bytes for every kind: all lists and conditions are written, used or not.
#[test]
fn every_kind_writes_everything() {
    for n in 1..=8 {
        let first = written(&distinct(1, n));
        for kind in (2..=9).filter(|&kind| count_fits(kind, n)) {
            assert_eq!(written(&distinct(kind, n)), first, "{kind} {n}");
        }
    }
}

/// What the search is given, by what was filed.
#[test]
fn the_reader_finds_each_number_in_its_place() {
    for n in 1..=8u64 {
        let filing = distinct(1, n);
        let job = check(1, n as usize, &written(&filing)).ok().unwrap();
        for i in 0..n {
            assert_eq!(job.eos.tc[i as usize], 300.0 + i as f64);
            for j in 0..n {
                let expected = if i == j { 0.0 } else { k(i.min(j), i.max(j)) };
                assert_eq!(job.eos.k_ij[i as usize][j as usize], expected, "{i} {j}");
            }
        }
        assert_eq!(job.molefracs, filing.fractions);
        let conditions = [job.temperature, job.pressure, job.start];
        assert_eq!(conditions, [310.5, 1.5e-3, 2.5e-3]);
        assert_eq!(job.choice, filing.choice);
        let pure = check(5, n as usize, &written(&distinct(5, n)))
            .ok()
            .unwrap();
        let chosen = if n > 1 { 301.0 } else { 300.0 };
        assert_eq!(pure.eos.tc, [chosen]);
    }
}

/// All NaNs are one; every other float keeps its bits, and so does a choice that looks like a NaN.
#[test]
fn bits_of_unread_numbers() {
    for (given, expected) in [
        (0xFFF8_0000_0000_0001, NAN),
        (0xFFF8_0000_0000_0000, NAN),
        (0x7FF0_0000_0000_0001, NAN),
        (0xFFF0_0000_0000_0001, NAN),
        (0x7FFF_FFFF_FFFF_FFFF, NAN),
        (0xFFFF_FFFF_FFFF_FFFF, NAN),
        (NAN, NAN),
        (0x7FF0_0000_0000_0000, 0x7FF0_0000_0000_0000),
        (0xFFF0_0000_0000_0000, 0xFFF0_0000_0000_0000),
        (0x8000_0000_0000_0000, 0x8000_0000_0000_0000),
        (0x0000_0000_0000_0001, 0x0000_0000_0000_0001),
        (0x800F_FFFF_FFFF_FFFF, 0x800F_FFFF_FFFF_FFFF),
        (0x7FEF_FFFF_FFFF_FFFF, 0x7FEF_FFFF_FFFF_FFFF),
    ] {
        let x = f64::from_bits(given);
        let mut filing = distinct(6, 2);
        (filing.fractions, filing.pressure, filing.start) = (vec![x, 0.5], x, x);
        let block = written(&filing);
        for at in [72, 104, 112] {
            assert_eq!(block[at..at + 8], expected.to_le_bytes(), "{given:X} {at}");
        }
        assert_eq!(block[80..88], 0.5f64.to_le_bytes());
        let mut filing = distinct(3, 2);
        filing.choice = given;
        assert_eq!(written(&filing)[88..96], given.to_le_bytes());
    }
    // a block with such a NaN, read and written again
    let mut given = written(&distinct(4, 2));
    given[112..120].copy_from_slice(&0xFFF8_0000_0000_0001u64.to_le_bytes());
    let mut again = given;
    let filing = filing_of(4, 2, &given).unwrap();
    assert_eq!(write_block(&filing, &mut again), 0);
    given[112..120].copy_from_slice(&NAN.to_le_bytes());
    assert_eq!(again, given);
}

// ---- refusals

type Fault = fn(&mut Filing, &mut usize);

/// Faults of a filing of kind 1 with two components that starts from its start.
const FAULTS: &[(u64, Fault)] = &[
    (2, |f, _| f.kind = 0),
    (2, |f, _| f.kind = 10),
    (2, |f, _| f.kind = 255),
    (2, |f, _| f.kind = 256 + 1),
    (2, |f, _| f.kind = (1 << 16) + 1),
    (2, |f, _| f.kind = 256 + 7),
    (2, |f, _| f.kind = (1 << 32) + 3),
    (2, |f, _| f.kind = (1 << 63) + 1),
    (2, |f, _| f.kind = u64::MAX),
    (3, |f, _| f.n = 0),
    (3, |f, _| f.n = 9),
    (3, |f, _| f.n = 255),
    (3, |f, _| f.n = 256 + 2),
    (3, |f, _| f.n = (1 << 16) + 2),
    (3, |f, _| f.n = (1 << 32) + 2),
    (3, |f, _| f.n = 1 << 61),
    (3, |f, _| f.n = (1 << 62) + 2),
    (3, |f, _| f.n = 1 << 63),
    (3, |f, _| f.n = (1 << 63) + 2),
    (3, |f, _| f.n = u64::MAX),
    // kinds 7 to 9 are for two components
    (3, |f, _| (f.kind, f.n) = (7, 1)),
    (3, |f, _| (f.kind, f.n) = (7, 3)),
    (3, |f, _| (f.kind, f.n) = (7, 8)),
    (3, |f, _| (f.kind, f.n) = (7, 256 + 2)),
    (3, |f, _| (f.kind, f.n) = (8, 1)),
    (3, |f, _| (f.kind, f.n) = (8, 8)),
    (3, |f, _| (f.kind, f.n) = (9, 3)),
    (3, |f, _| (f.kind, f.n) = (9, 256 + 2)),
    (8, |_, length| *length = 0),
    (8, |_, length| *length = 639),
    (8, |_, length| *length = 641),
    (8, |_, length| *length = 640 + 65536),
    (11, |f, _| f.coefficients.push(0.1)),
    (11, |f, _| f.coefficients.truncate(5)),
    (11, |f, _| f.coefficients.clear()),
    (11, |f, _| f.interactions.push(0.1)),
    (11, |f, _| f.interactions.clear()),
    (11, |f, _| f.fractions.push(0.0)),
    (11, |f, _| f.fractions.truncate(1)),
    (11, |f, _| f.fractions.clear()),
    // as many floats as there should be
    (11, |f, _| {
        f.fractions.pop();
        f.interactions.push(0.1);
    }),
    (11, |f, _| {
        f.interactions.pop();
        f.coefficients.push(0.1);
    }),
    (12, |f, _| f.coefficients[0] = f64::NAN),
    (12, |f, _| f.coefficients[3] = -0.0),
    (12, |f, _| f.coefficients[1] = f64::INFINITY),
    (12, |f, _| f.coefficients[4] = -1.0),
    (12, |f, _| f.coefficients[5] = f64::NEG_INFINITY),
    // kappa, then a infinite
    (12, |f, _| f.coefficients[2] = 1e200),
    (12, |f, _| f.coefficients[3] = 1e200),
    (13, |f, _| f.interactions[0] = f64::NAN),
    (13, |f, _| f.interactions[0] = f64::NEG_INFINITY),
    (14, |f, _| f.fractions[0] = f64::INFINITY),
    (14, |f, _| f.fractions[1] = f64::NAN),
    // this one adds up
    (14, |f, _| f.fractions = vec![1.0, -0.0]),
    (17, |f, _| f.fractions = vec![60.0, 40.0]),
    (17, |f, _| f.fractions = vec![0.6, 0.4 + 1e-8]),
    (17, |f, _| f.fractions = vec![0.0, 0.0]),
    (15, |f, _| f.temperature = 0.0),
    (15, |f, _| f.temperature = f64::INFINITY),
    (15, |f, _| f.pressure = f64::NAN),
    (15, |f, _| f.start = f64::NEG_INFINITY),
    // co-volumes so small that the maximum density overflows; the choice
    (16, |f, _| {
        f.coefficients = vec![1e-7, 1e308, 0.1, 1e-7, 1e308, 0.1]
    }),
    (16, |f, _| f.choice = 3),
    (16, |f, _| f.choice = 1 << 32),
    (16, |f, _| f.choice = u64::MAX),
];

fn sound() -> Filing {
    Filing {
        choice: 2,
        ..distinct(1, 2)
    }
}

#[test]
fn each_refusal() {
    assert_eq!(answer(&sound()), 0);
    for (i, (refusal, fault)) in FAULTS.iter().enumerate() {
        let (mut filing, mut length) = (sound(), BLOCK);
        fault(&mut filing, &mut length);
        assert_eq!(
            write(&filing, length).err(),
            Some(*refusal),
            "{i} {filing:?}"
        );
    }
    let numbers: BTreeSet<u64> = FAULTS.iter().map(|&(refusal, _)| refusal).collect();
    assert_eq!(numbers, ORDER.into_iter().collect());
}

/// Two faults at once: the refusal that is first in the order.
#[test]
fn order_of_two() {
    for (place, first) in ORDER.into_iter().enumerate() {
        for second in &ORDER[place + 1..] {
            for (_, early) in FAULTS.iter().filter(|(number, _)| *number == first) {
                for (_, late) in FAULTS.iter().filter(|(number, _)| number == second) {
                    let (mut filing, mut length) = (sound(), BLOCK);
                    late(&mut filing, &mut length);
                    early(&mut filing, &mut length);
                    // with a choice other than 2 the start is not read, and the choice is the only fault
                    let unread = filing.choice != 2 && !filing.start.is_finite();
                    let expected = if first == 15 && unread { 16 } else { first };
                    let found = write(&filing, length).err();
                    assert_eq!(found, Some(expected), "{second} {filing:?}");
                }
            }
        }
    }
}

/// Everything wrong, mended one after the other.
#[test]
fn order_of_all() {
    let mut filing = Filing {
        kind: 0,
        n: 0,
        coefficients: vec![1e-7, 1e308, f64::NAN, 1e-7, 1e308, 0.1, 1.0],
        interactions: vec![f64::INFINITY],
        fractions: vec![60.0, -0.0],
        choice: 3,
        temperature: f64::NAN,
        pressure: f64::NAN,
        start: f64::NAN,
    };
    let refused = |filing: &Filing, length| write(filing, length).err();
    assert_eq!(refused(&filing, 641), Some(2));
    filing.kind = 1;
    assert_eq!(refused(&filing, 641), Some(3));
    filing.n = 2;
    assert_eq!(refused(&filing, 641), Some(8));
    assert_eq!(refused(&filing, BLOCK), Some(11));
    filing.coefficients.pop();
    assert_eq!(refused(&filing, BLOCK), Some(12));
    filing.coefficients[2] = 0.1;
    assert_eq!(refused(&filing, BLOCK), Some(13));
    filing.interactions[0] = -0.0;
    assert_eq!(refused(&filing, BLOCK), Some(14));
    filing.fractions[1] = 40.0;
    assert_eq!(refused(&filing, BLOCK), Some(17));
    filing.fractions = vec![0.6, 0.4];
    assert_eq!(refused(&filing, BLOCK), Some(15));
    (filing.temperature, filing.pressure) = (300.0, -1.0);
    assert_eq!(refused(&filing, BLOCK), Some(16));
    filing.choice = 2;
    assert_eq!(refused(&filing, BLOCK), Some(15));
    filing.start = -1.0;
    assert_eq!(refused(&filing, BLOCK), Some(16));
    filing.coefficients = distinct(1, 2).coefficients;
    assert_eq!(refused(&filing, BLOCK), None);
}

/// Which kinds refuse a number, and which do not read it.
#[test]
fn refusals_by_kind() {
    let expect = |name: &str, expected: [u64; 6], fault: &dyn Fn(&mut Filing)| {
        for (kind, expected) in (1..=6).zip(expected) {
            let mut filing = distinct(kind, 3);
            fault(&mut filing);
            assert_eq!(answer(&filing), expected, "{name}, kind {kind}");
        }
    };
    let nan = f64::NAN;
    expect("last acentric factor", [12; 6], &|f| {
        f.coefficients[8] = nan
    });
    expect("last interaction", [13; 6], &|f| f.interactions[2] = nan);
    expect("fraction", [14, 14, 14, 14, 0, 0], &|f| {
        f.fractions[2] = -0.0
    });
    expect("sum", [17, 17, 17, 17, 0, 0], &|f| f.fractions[2] = 0.0);
    expect("temperature", [15; 6], &|f| f.temperature = nan);
    expect("none", [15, 15, 15, 15, 0, 15], &|f| f.temperature = 0.0);
    expect("-0", [15; 6], &|f| f.temperature = -0.0);
    expect("pressure", [15, 15, 0, 0, 0, 0], &|f| f.pressure = nan);
    expect("start", [0, 0, 15, 0, 15, 0], &|f| f.start = nan);
    expect("start of choice 2", [15, 0, 15, 16, 15, 0], &|f| {
        (f.start, f.choice) = (nan, 2)
    });
    expect("start of choice 3", [16, 0, 15, 16, 15, 16], &|f| {
        (f.start, f.choice) = (nan, 3)
    });
    expect("choice 2", [0, 0, 0, 16, 0, 0], &|f| f.choice = 2);
    expect("choice 3", [16, 0, 0, 16, 16, 16], &|f| f.choice = 3);
    expect("choice 2^32", [16, 0, 0, 16, 16, 16], &|f| {
        f.choice = 1 << 32
    });
    // the maximum density of the run: the chosen component's, or the blend's
    let small = |f: &mut Filing, i: usize| {
        (f.coefficients[3 * i], f.coefficients[3 * i + 1]) = (1e-7, 1e308)
    };
    expect("component 0", [0; 6], &|f| small(f, 0));
    expect("component 1", [0, 0, 0, 0, 16, 16], &|f| small(f, 1));
    expect("all components", [16; 6], &|f| {
        (0..3).for_each(|i| small(f, i))
    });
}

/// Kinds 7, 8 and 9 read fractions and start; 8 has to have a temperature, 9 reads the pressure.
#[test]
fn refusals_of_two_components() {
    let expect = |name: &str, expected: [u64; 3], fault: &dyn Fn(&mut Filing)| {
        for (kind, expected) in (7..=9).zip(expected) {
            let mut filing = distinct(kind, 2);
            fault(&mut filing);
            assert_eq!(answer(&filing), expected, "{name}, kind {kind}");
        }
    };
    let nan = f64::NAN;
    expect("sound", [0; 3], &|_| {});
    expect("last acentric factor", [12; 3], &|f| {
        f.coefficients[5] = nan
    });
    expect("interaction", [13; 3], &|f| f.interactions[0] = nan);
    expect("fraction", [14; 3], &|f| f.fractions = vec![1.0, -0.0]);
    expect("fraction 0", [0; 3], &|f| f.fractions = vec![1.0, 0.0]);
    expect("sum", [17; 3], &|f| f.fractions[1] = 0.0);
    expect("temperature", [15; 3], &|f| f.temperature = nan);
    expect("infinite", [15; 3], &|f| f.temperature = f64::INFINITY);
    expect("no temperature", [0, 15, 0], &|f| f.temperature = 0.0);
    expect("temperature -0", [15; 3], &|f| f.temperature = -0.0);
    expect("below 0", [15; 3], &|f| f.temperature = -300.0);
    expect("start", [15; 3], &|f| f.start = f64::INFINITY);
    expect("no start", [0; 3], &|f| f.start = 0.0);
    expect("start -0", [0; 3], &|f| f.start = -0.0);
    expect("negative start", [0; 3], &|f| f.start = -1.0);
    expect("pressure", [0, 0, 15], &|f| f.pressure = nan);
    expect("infinite pressure", [0, 0, 15], &|f| {
        f.pressure = f64::NEG_INFINITY
    });
    for pressure in [0.0, -0.0, -1e300, f64::MAX, 5e-324] {
        expect("finite pressure", [0; 3], &|f| f.pressure = pressure);
    }
    for choice in [0, 1, 2, 3, 1 << 32, u64::MAX] {
        expect("choice", [0; 3], &|f| f.choice = choice);
    }
    // the maximum density of the blend, not of a component
    let small = |f: &mut Filing, i: usize| {
        (f.coefficients[3 * i], f.coefficients[3 * i + 1]) = (1e-7, 1e308)
    };
    expect("component 0", [0; 3], &|f| small(f, 0));
    expect("component 1", [0; 3], &|f| small(f, 1));
    expect("both components", [16; 3], &|f| {
        (0..2).for_each(|i| small(f, i))
    });
    // N other than 2, with lists to match
    for kind in 7..=9 {
        for n in (0..=9).filter(|&n| n != 2) {
            assert_eq!(answer(&distinct(kind, n)), 3, "{kind} {n}");
        }
    }
}

#[test]
fn lengths_of_lists() {
    let pairs = (1..=9).flat_map(|kind| (1..=8).map(move |n| (kind, n)));
    for (kind, n) in pairs.filter(|&(kind, n)| count_fits(kind, n)) {
        let right = [3 * n, n * (n - 1) / 2, n].map(|count| count as usize);
        for (which, right) in right.into_iter().enumerate() {
            // the last ones are right again with the count or the bytes cut to 8 or 16 bits
            let far = [32, 256, 8192, 65536].map(|more| right + more);
            for count in (0..=2 * right + 3).chain(far) {
                let mut filing = distinct(kind, n);
                let numbers = filing.list_mut(which);
                numbers.resize(count, 0.0);
                let expected = if count == right { 0 } else { 11 };
                assert_eq!(answer(&filing), expected, "{kind} {n} {which} {count}");
            }
        }
        // lists that fit another N
        for other in (1..=8).filter(|&other| other != n) {
            let filing = Filing {
                n,
                ..distinct(kind, other)
            };
            assert_eq!(answer(&filing), 11, "{kind} {n} {other}");
        }
        // as many floats as there should be, one of them in another list
        for (from, to) in [(0, 1), (0, 2), (1, 0), (1, 2), (2, 0), (2, 1)] {
            let mut filing = distinct(kind, n);
            if let Some(moved) = filing.list_mut(from).pop() {
                filing.list_mut(to).push(moved);
                assert_eq!(answer(&filing), 11, "{kind} {n} {from} {to}");
            }
        }
    }
    // lists that fit an N of 0 or 9
    for n in [0, 9] {
        assert_eq!(answer(&distinct(1, n)), 3);
    }
}

#[test]
fn lengths_of_buffers() {
    for length in 0..=1300 {
        let expected = (length != BLOCK).then_some(8);
        assert_eq!(write(&distinct(1, 2), length).err(), expected, "{length}");
        assert_eq!(write(&distinct(6, 8), length).err(), expected, "{length}");
    }
}

#[test]
fn filings_of_blocks() {
    let filing = distinct(1, 3);
    let packed = written(&filing);
    assert_eq!(words(&filing_of(1, 3, &packed).unwrap()), words(&filing));
    // every kind, known or not; the parts need not be packed
    let mut spread = [0x5A; BLOCK];
    for (i, (offset, length)) in pairs(&packed).into_iter().enumerate() {
        let to = [17, 200, 300, 608][i];
        spread[4 * i..4 * i + 4].copy_from_slice(&packed[4 * i..4 * i + 4]);
        spread[4 * i..4 * i + 2].copy_from_slice(&(to as u16).to_le_bytes());
        spread[to..to + length].copy_from_slice(&packed[offset..offset + length]);
    }
    let found = filing_of(77, 3, &spread).unwrap();
    assert_eq!(words(&found)[2..], words(&filing)[2..]);
    assert_eq!((found.kind, found.n), (77, 3));
    let again = Filing { kind: 1, ..found };
    assert_eq!(written(&again), packed);
    // another N, and pairs that are wrong
    for n in [0, 1, 2, 4, 8, 9, 256 + 3, (1 << 32) + 3, 1 << 63, u64::MAX] {
        assert!(filing_of(1, n, &packed).is_none(), "{n}");
    }
    for at in [0, 2, 4, 6, 8, 10, 12, 14] {
        let mut wrong = packed;
        wrong[at] -= 1;
        assert!(filing_of(1, 3, &wrong).is_none(), "{at}");
    }
}

// ---- generated filings and requests

/// A float's bits, one pattern for all NaNs.
fn word(x: f64) -> u64 {
    if x.is_nan() {
        NAN
    } else {
        x.to_bits()
    }
}

/// Everything in a filing: kind, N, the lists with their lengths, the conditions.
fn listed(filing: &Filing, word: fn(f64) -> u64) -> Vec<u64> {
    let mut words = vec![filing.kind, filing.n];
    for list in [
        &filing.coefficients,
        &filing.interactions,
        &filing.fractions,
    ] {
        words.push(list.len() as u64);
        words.extend(list.iter().map(|&x| word(x)));
    }
    words.push(filing.choice);
    words.extend([filing.temperature, filing.pressure, filing.start].map(word));
    words
}

fn words(filing: &Filing) -> Vec<u64> {
    listed(filing, word)
}

/// The offsets one after the other from 16, zeros after the last end.
fn assert_packed(n: u64, block: &[u8; BLOCK]) {
    let n = n as usize;
    let mut at = 16;
    let lengths = [24 * n, 4 * n * (n - 1), 8 * n, 32];
    for (pair, length) in pairs(block).into_iter().zip(lengths) {
        assert_eq!(pair, (at, length));
        at += length;
    }
    assert!(block[at..].iter().all(|&byte| byte == 0));
}

/// What a search is given.
fn job_words(job: &Job) -> Vec<u64> {
    let eos = &job.eos;
    let lists = [&eos.tc, &eos.a, &eos.b, &eos.kappa, &job.molefracs];
    let conditions = [job.temperature, job.pressure, job.start];
    let floats = lists
        .into_iter()
        .flatten()
        .chain(eos.k_ij.iter().flatten())
        .chain(&conditions);
    let head = [u64::from(job.kind), job.choice];
    head.into_iter().chain(floats.map(|&x| word(x))).collect()
}

#[test]
fn written_filings_are_read_as_given() {
    let mut seen = 0;
    for (filing, mut buffer) in filings(2, 60_000) {
        if write_block(&filing, &mut buffer) != 0 {
            continue;
        }
        let block: [u8; BLOCK] = buffer.try_into().unwrap();
        let found = filing_of(filing.kind, filing.n, &block).unwrap();
        // the bits as they stand in the block: there all NaNs are the same
        assert_eq!(listed(&found, f64::to_bits), words(&filing));
        assert!(check(filing.kind as u8, filing.n as usize, &block).is_ok());
        assert_packed(filing.n, &block);
        seen += 1;
        if seen == 20_000 {
            break;
        }
    }
    assert_eq!(seen, 20_000);
}

/// Every fault that a filing has, in the order of the refusals, told from its numbers and not from a block.
fn faults_of(filing: &Filing, length: usize) -> Vec<u64> {
    let positive = |x: f64| x.is_finite() && x > 0.0;
    let (kind, n) = (filing.kind, u128::from(filing.n));
    let fits = filing.coefficients.len() as u128 == 3 * n
        && 2 * filing.interactions.len() as u128 == n * n - n
        && filing.fractions.len() as u128 == n;
    let pure: Vec<PengRobinson> = filing
        .coefficients
        .chunks_exact(3)
        .map(|c| PengRobinsonRecord {
            tc: c[0],
            pc: c[1],
            acentric_factor: c[2],
        })
        .map(|record| PengRobinson::new(&[record], &[]))
        .collect();
    let bad_component = |(c, eos): (&[f64], &PengRobinson)| {
        !(positive(c[0])
            && positive(c[1])
            && c[2].is_finite()
            && eos.kappa[0].is_finite()
            && positive(eos.a[0])
            && positive(eos.b[0]))
    };
    // an unknown kind counts as one that reads them
    let reads_fractions = kind != 5 && kind != 6;
    let sum: f64 = filing.fractions.iter().sum();
    let none = kind == 5 || kind == 7 || kind == 9;
    let temperature = positive(filing.temperature) || (none && filing.temperature == 0.0);
    let minus_zero = filing.temperature.to_bits() == 1 << 63;
    let start = kind == 3 || none || kind == 8 || (kind == 1 && filing.choice == 2);
    let choices = match kind {
        1 => 3,
        4 => 2,
        5 | 6 => filing.n,
        _ => u64::MAX,
    };
    let choice = choices == u64::MAX || filing.choice < choices;
    let covolume = || -> f64 {
        match kind {
            5 | 6 => pure[filing.choice as usize].b[0],
            _ => filing
                .fractions
                .iter()
                .zip(&pure)
                .map(|(x, eos)| x * eos.b[0])
                .sum(),
        }
    };
    let holds = [
        (2, !(1..=9).contains(&kind)),
        (
            3,
            !(1..=8).contains(&n) || (kind > 6 && kind < 10 && n != 2),
        ),
        (8, length != 640),
        (11, !fits),
        (
            12,
            filing
                .coefficients
                .chunks_exact(3)
                .zip(&pure)
                .any(bad_component),
        ),
        (13, filing.interactions.iter().any(|k| !k.is_finite())),
        (
            14,
            reads_fractions
                && filing
                    .fractions
                    .iter()
                    .any(|x| !x.is_finite() || x.is_sign_negative()),
        ),
        (
            17,
            reads_fractions && !((-1e-9..=1e-9).contains(&(sum - 1.0))),
        ),
        (
            15,
            !temperature
                || minus_zero
                || ((kind <= 2 || kind == 9) && !filing.pressure.is_finite())
                || (start && !filing.start.is_finite()),
        ),
        (
            16,
            !choice || (fits && n > 0 && !positive(0.9 / covolume())),
        ),
    ];
    holds
        .into_iter()
        .filter_map(|(number, holds)| holds.then_some(number))
        .collect()
}

/// The first fault is the answer, and any two faults meet in some filing, so that the order shows.
#[test]
fn generated_filings_are_answered_by_their_first_fault() {
    let mut both: BTreeMap<(u64, u64), u64> = BTreeMap::new();
    for (filing, mut buffer) in filings(3, 40_000) {
        let before = buffer.clone();
        let faults = faults_of(&filing, buffer.len());
        let answer = write_block(&filing, &mut buffer);
        assert_eq!(
            answer,
            faults.first().copied().unwrap_or(0),
            "{faults:?} {filing:?}"
        );
        assert!(answer == 0 || buffer == before);
        for (i, &first) in faults.iter().enumerate() {
            for &second in &faults[i + 1..] {
                *both.entry((first, second)).or_default() += 1;
            }
        }
    }
    for (place, &first) in ORDER.iter().enumerate() {
        for &second in &ORDER[place + 1..] {
            let count = both.get(&(first, second)).copied().unwrap_or(0);
            assert!(count >= 20, "{first} {second}: {count}");
        }
    }
}

/// Every answer of every kind, every N written, and the numbers that are right when cut to fewer bits.
#[test]
fn generated_filings_are_mixed() {
    let mut census = FilingCensus::default();
    let (mut kinds, mut ns, mut lengths) = (BTreeSet::new(), BTreeSet::new(), BTreeSet::new());
    // by list: lengths less the right one, and lengths of a few sorts
    let (mut off, mut sorts) = (BTreeSet::new(), BTreeSet::new());
    for (filing, mut buffer) in filings(1, 20_000) {
        census.count(&filing, &mut buffer);
        kinds.insert(filing.kind);
        ns.insert(filing.n);
        lengths.insert(buffer.len());
        if !(2..=7).contains(&filing.n) {
            continue;
        }
        let n = filing.n as usize;
        let counts = |n: usize| [3 * n, n * (n - 1) / 2, n];
        let lists = [
            &filing.coefficients,
            &filing.interactions,
            &filing.fractions,
        ];
        for (which, list) in lists.into_iter().enumerate() {
            let right = counts(n)[which];
            off.insert((which, list.len() as i64 - right as i64));
            for (sort, count) in [
                ("none", 0),
                ("double", 2 * right),
                ("N - 1", counts(n - 1)[which]),
                ("N + 1", counts(n + 1)[which]),
                ("matrix", n * n),
                ("N(N - 1)", n * (n - 1)),
            ] {
                if list.len() == count {
                    sorts.insert((which, sort));
                }
            }
        }
    }
    for kind in 1..=9 {
        let pure = kind == 5 || kind == 6;
        for answer in [0].into_iter().chain(ORDER) {
            let possible = answer != 2 && !(pure && (answer == 14 || answer == 17));
            let count = census.answers.get(&(kind, answer)).copied().unwrap_or(0);
            assert_eq!(count >= 20, possible, "{kind} {answer}: {count}");
        }
        for n in 1..=8 {
            let count = census.written.get(&(kind, n)).copied().unwrap_or(0);
            assert_eq!(count >= 50, count_fits(kind, n), "{kind} {n}: {count}");
        }
    }
    assert!(census.answers[&(0, 2)] >= 500);
    let accepted: u64 = census.written.values().sum();
    assert!((8_000..=12_000).contains(&accepted), "{accepted}");
    for kind in [0, 10, 255, 256 + 1, 256 + 7, (1 << 32) + 3, u64::MAX] {
        assert!(kinds.contains(&kind), "{kind}");
    }
    for n in [0, 9, (1 << 32) + 1, (1 << 62) + 1, 1 << 63, u64::MAX] {
        assert!(ns.contains(&n), "{n}");
    }
    for length in [0, 1, 639, 641, 642, 1280, 640 + 65536] {
        assert!(lengths.contains(&length), "{length}");
    }
    for which in 0..3 {
        for by in [-8, -3, -2, -1, 1, 2, 3, 8] {
            // seven fractions at most here
            if (which, by) != (2, -8) {
                assert!(off.contains(&(which, by)), "{which} {by}");
            }
        }
        for sort in ["none", "double", "N - 1", "N + 1"] {
            assert!(sorts.contains(&(which, sort)), "{which} {sort}");
        }
    }
    assert!(sorts.contains(&(1, "matrix")) && sorts.contains(&(1, "N(N - 1)")));
}

/// The same seed gives the same filings, however many are asked for.
#[test]
fn generated_filings_repeat() {
    let of = |count| -> Vec<(Vec<u64>, Vec<u8>)> {
        filings(5, count)
            .take(50)
            .map(|(filing, buffer)| (words(&filing), buffer))
            .collect()
    };
    let first = of(50);
    assert_eq!(first, of(1000));
    let others: BTreeSet<_> = first.iter().map(|(words, _)| words).collect();
    assert_eq!(others.len(), 50);
}

/// Blocks as suppliers make them, parts anywhere: what the reader accepts it reads the same after writing, what it
/// refuses for its numbers the writer refuses alike.
#[test]
fn requests_read_and_written_again() {
    let (mut accepted, mut refused) = (0, BTreeMap::new());
    for request in requests(4, 40_000) {
        let (kind, n) = (request[0], request[1]);
        let block: &[u8; BLOCK] = request[2..].try_into().unwrap();
        let fits = kind_fits(kind.into()) && count_fits(kind.into(), n.into());
        if !fits || accepted == 20_000 {
            continue;
        }
        let count = usize::from(n);
        let filing = filing_of(u64::from(kind), u64::from(n), block);
        let job = match check(kind, count, block) {
            Ok(job) => job,
            Err(11) => {
                assert!(filing.is_none());
                continue;
            }
            Err(refusal) => {
                assert_eq!(answer(&filing.unwrap()), refusal);
                *refused.entry(refusal).or_insert(0) += 1;
                continue;
            }
        };
        let filing = filing.unwrap();
        let again = written(&filing);
        assert_packed(filing.n, &again);
        let found = filing_of(filing.kind, filing.n, &again).unwrap();
        assert_eq!(words(&found), words(&filing));
        let again_job = check(kind, count, &again).ok().unwrap();
        assert_eq!(job_words(&again_job), job_words(&job));
        // searches take their time
        if accepted < 3_000 {
            assert_eq!(
                run_request(kind, n, &again).to_string(),
                run_request(kind, n, block).to_string()
            );
        }
        accepted += 1;
    }
    assert_eq!(accepted, 20_000);
    for refusal in 12..=17 {
        assert!(refused.get(&refusal).copied().unwrap_or(0) >= 20);
    }
}
