//! Answers of the library beside those of the oracle, a separate implementation, for every kind and every refusal by
//! the equation. `answer` and the board give the same sealed bytes.

mod common;

use common::{eight_components, propane, propane_butane, Numbers, PROPANE};
use peng_robinson_board::DensityInitialization::{InitialDensity, Liquid, Vapor};
use peng_robinson_board::*;
use std::io::Write;
use std::process::{Command, Stdio};

/// Requests, and the lines that `oracle --batch` printed for blocks packed by a script from the same numbers: kind,
/// status, three values as bits, evaluations.
#[rustfmt::skip]
fn cases() -> Vec<(Request, &'static str)> {
    let (pure, two, eight) = (propane(), propane_butane(), eight_components());
    // one component under two names: the critical point is its own
    let alike = Blend { components: vec![PROPANE; 2], interactions: vec![0.0], fractions: vec![0.5; 2] };
    // an interaction of 2 makes the blend's a 0
    let repelling = Blend { interactions: vec![2.0], ..alike.clone() };
    let without_butane = Blend { fractions: vec![1.0, 0.0], ..propane_butane() };
    let cases = [
        (Request::density(&two, 300.0, 0.05, Liquid), "1 0 3F7B5EDAFF5A36A6 0000000000000000 0000000000000000 9"),
        (Request::density(&two, 300.0, 0.02, Vapor), "1 0 3F128BAA8A86D745 0000000000000000 0000000000000000 4"),
        (
            Request::density(&two, 250.0, 10.0, InitialDensity(0.004)),
            "1 0 3F81ABFC58EB3068 0000000000000000 0000000000000000 24",
        ),
        (
            Request::density(&two, 300.0, 0.05, InitialDensity(-1.0)),
            "1 21 0000000000000000 0000000000000000 0000000000000000 0",
        ),
        (Request::density(&two, 369.8, -1.0, Liquid), "1 22 0000000000000000 0000000000000000 0000000000000000 67"),
        (Request::density(&pure, 0.001, -0.1, Liquid), "1 25 0000000000000000 0000000000000000 0000000000000000 51"),
        (
            Request::density(&pure, 200.0, 1e300, InitialDensity(0.004)),
            "1 27 0000000000000000 0000000000000000 0000000000000000 21",
        ),
        (Request::density(&eight, 320.0, 0.3, Vapor), "1 0 3F5A9C210AA7DC01 0000000000000000 0000000000000000 6"),
        (Request::stable_density(&two, 368.0, 0.02), "2 0 3F0D6E359CA857CD 0000000000000000 0000000000000000 35"),
        (Request::stable_density(&two, 200.0, 100.0), "2 0 3F8353A41794892E 0000000000000000 0000000000000000 14"),
        (Request::stable_density(&eight, 250.0, 0.5), "2 0 3F82817316D0C6DC 0000000000000000 0000000000000000 25"),
        (Request::stable_density(&two, 300.0, -1.0), "2 24 0000000000000000 0000000000000000 0000000000000000 64"),
        (Request::stable_density(&two, 250.0, 100.0), "2 22 0000000000000000 0000000000000000 0000000000000000 50"),
        (Request::pressure_spinodal(&pure, 250.0, 0.003), "3 0 3FB435DD4E70E568 3F4635F103D24363 C1124A53E660EFE7 9"),
        (Request::pressure_spinodal(&two, 250.0, 0.006), "3 0 BFFE9F7F580FCCC8 3F783DA60560CA10 41249E98B17CFBB1 5"),
        (Request::pressure_spinodal(&two, 250.0, 0.0), "3 21 0000000000000000 0000000000000000 0000000000000000 0"),
        (Request::pressure_spinodal(&two, 400.0, 0.001), "3 22 0000000000000000 0000000000000000 0000000000000000 30"),
        (
            Request::spinodal_branch(&two, 360.0, Phase::Vapor),
            "4 0 3FC98BBA361854BA 3F55D25CA85AF105 0000000000000000 7",
        ),
        (
            Request::spinodal_branch(&two, 200.0, Phase::Liquid),
            "4 0 C00B8A9CF99D3720 3F7B11A1C5CB53B9 0000000000000000 5",
        ),
        (
            Request::spinodal_branch(&pure, 0.001, Phase::Liquid),
            "4 25 0000000000000000 0000000000000000 0000000000000000 21",
        ),
        (Request::critical_point(&two, 0, None, None), "5 0 40771D213CEC8CA5 3F662B76C42F98DC 0000000000000000 5"),
        (Request::critical_point(&two, 1, None, None), "5 0 407A91C12982F698 3F613BFB372EDA07 0000000000000000 6"),
        (
            Request::critical_point(&pure, 0, Some(250.0), Some(0.003)),
            "5 0 40771D213CEC8CA6 3F662B76C42F98DC 0000000000000000 6",
        ),
        (
            Request::critical_point(&eight, 7, None, Some(0.004)),
            "5 0 407301EF68133BA4 3F7768CCB24151B5 0000000000000000 6",
        ),
        (
            Request::critical_point(&pure, 0, Some(1e124), None),
            "5 23 0000000000000000 0000000000000000 0000000000000000 8",
        ),
        (Request::stability_spinodals(&two, 1, 350.0), "6 0 3F4A98AA3FAE44DC 3F70D5BA291BDF4F 0000000000000000 20"),
        (Request::stability_spinodals(&eight, 2, 300.0), "6 0 3F50CDB880EB94A5 3F75D75D1A2D8EAF 0000000000000000 19"),
        (Request::stability_spinodals(&pure, 0, 400.0), "6 26 0000000000000000 0000000000000000 0000000000000000 55"),
        (Request::blend_critical_point(&two, None, None), "7 0 4078BA68707F3DA0 3F643FA92CC972CF 0000000000000000 5"),
        (
            Request::blend_critical_point(&two, Some(350.0), Some(0.002)),
            "7 0 4078BA68707F3D9F 3F643FA92CC972CF 0000000000000000 5",
        ),
        (
            Request::blend_critical_point(&two, None, Some(0.002)),
            "7 0 4078BA68707F3D9F 3F643FA92CC972CC 0000000000000000 6",
        ),
        (Request::blend_critical_point(&alike, None, None), "7 0 40771D213CEC8CA7 3F662B76C42F98D7 0000000000000000 5"),
        (
            Request::blend_critical_point(&two, Some(5000.0), None),
            "7 22 0000000000000000 0000000000000000 0000000000000000 50",
        ),
        (
            Request::blend_critical_point(&repelling, Some(300.0), None),
            "7 23 0000000000000000 0000000000000000 0000000000000000 1",
        ),
        (
            Request::blend_critical_point(&without_butane, None, None),
            "7 22 0000000000000000 0000000000000000 0000000000000000 3",
        ),
        (
            Request::blend_critical_point(&without_butane, Some(350.0), None),
            "7 27 0000000000000000 0000000000000000 0000000000000000 1",
        ),
        (
            Request::critical_point_at_temperature(&two, 400.0, None),
            "8 0 3F54BFE6B8B66F4A 3F52F11B29E6C7E2 0000000000000000 4",
        ),
        (
            Request::critical_point_at_temperature(&two, 380.0, Some(0.002)),
            "8 0 3F625D3E23B78C72 3F39479952F04DD5 0000000000000000 7",
        ),
        (
            Request::critical_point_at_temperature(&repelling, 300.0, None),
            "8 0 3F36DF50A1728215 3F36DF50A172821E 0000000000000000 7",
        ),
        (
            Request::critical_point_at_temperature(&two, 500.0, None),
            "8 22 0000000000000000 0000000000000000 0000000000000000 200",
        ),
        (
            Request::critical_point_at_temperature(&alike, 5000.0, None),
            "8 23 0000000000000000 0000000000000000 0000000000000000 1",
        ),
        (
            Request::critical_point_at_temperature(&without_butane, 400.0, None),
            "8 27 0000000000000000 0000000000000000 0000000000000000 1",
        ),
        (
            Request::critical_point_at_pressure(&two, 0.29, Some(400.0), None),
            "9 0 4079FB6B082ED6DA 3F3F2011DB424AE5 3F5CBC969F774ACB 7",
        ),
        (
            Request::critical_point_at_pressure(&two, 0.29, None, None),
            "9 0 4079FB6B082ED6DC 3F3F2011DB424AF7 3F5CBC969F774AD4 86",
        ),
        (
            Request::critical_point_at_pressure(&two, 0.31, Some(380.0), Some(0.002)),
            "9 0 407890D30C1F185A 3F5A6775A1EF9CF9 3F4D1D0944E2508B 8",
        ),
        (
            Request::critical_point_at_pressure(&two, 1.0, Some(400.0), None),
            "9 22 0000000000000000 0000000000000000 0000000000000000 200",
        ),
        (
            Request::critical_point_at_pressure(&alike, 0.3, Some(5000.0), None),
            "9 23 0000000000000000 0000000000000000 0000000000000000 3",
        ),
        (
            Request::critical_point_at_pressure(&without_butane, 0.29, Some(400.0), None),
            "9 27 0000000000000000 0000000000000000 0000000000000000 1",
        ),
    ];
    let made = cases.into_iter().map(|(request, line)| (request.expect(line), line));
    let mut cases: Vec<_> = made.collect();
    // document 01's near case
    let mut zeros = [0; REQUEST_BYTES];
    zeros[..2].copy_from_slice(&[3, 1]);
    let zeros = Request::from_bytes(&zeros).expect("642 bytes");
    cases.push((zeros, "3 11 0000000000000000 0000000000000000 0000000000000000 0"));
    cases
}

/// The oracle's line of a sealed part.
fn line(kind: u64, sealed: &Sealed) -> String {
    let [first, second, third] = sealed.values.map(f64::to_bits);
    format!("{kind} {} {first:016X} {second:016X} {third:016X} {}", sealed.status, sealed.evaluations)
}

#[test]
fn answers_are_those_of_the_oracle() {
    for (request, expected) in cases() {
        let sealed = answer(&request).expect(expected);
        assert_eq!(line(request.kind(), &sealed), expected);
        match sealed.outcome() {
            Ok(values) => assert_eq!((sealed.status, values), (0, sealed.values), "{expected}"),
            Err(refusal) => assert_eq!(refusal.number(), sealed.status, "{expected}"),
        }
    }
}

/// `ORACLE=PATH cargo test --offline --test values -- --ignored`, with the path of the oracle's program.
#[test]
#[ignore = "needs the oracle's program"]
fn lines_are_those_that_the_oracle_prints() {
    let oracle = std::env::var_os("ORACLE").expect("ORACLE names the oracle's program");
    for (request, expected) in cases() {
        let mut child = Command::new(&oracle)
            .stdin(Stdio::piped())
            .stdout(Stdio::piped())
            .spawn()
            .expect("the oracle runs");
        let mut input = child.stdin.take().expect("standard input");
        input.write_all(&request.to_bytes()).expect("642 bytes are read");
        drop(input);
        let output = child.wait_with_output().expect("the oracle ends");
        assert_eq!(String::from_utf8_lossy(&output.stdout).trim_end(), expected);
    }
}

/// Document 02, P2: the parts packed from 16 and zeros after them.
#[test]
fn written_blocks_are_packed_from_16() {
    for blend in [propane(), propane_butane(), eight_components()] {
        let request = Request::density(&blend, 300.0, 0.05, InitialDensity(0.001)).unwrap();
        assert_eq!((request.kind(), request.components()), (1, blend.components.len() as u64));
        assert_eq!(*request.block(), Numbers::of(&blend, 2, 300.0, 0.05, 0.001).block());
        let request = Request::spinodal_branch(&blend, 300.0, Phase::Liquid).unwrap();
        assert_eq!(*request.block(), Numbers::of(&blend, 1, 300.0, 0.0, 0.0).block());
        let request = Request::critical_point(&blend, 0, None, Some(0.001)).unwrap();
        assert_eq!(*request.block(), Numbers::of(&blend, 0, 0.0, 0.0, 0.001).block());
        let bytes = request.to_bytes();
        assert_eq!((bytes[0], u64::from(bytes[1])), (5, request.components()));
        assert_eq!(bytes[2..], request.block()[..]);
        assert_eq!(Request::from_bytes(&bytes), Ok(request));
    }
    let blend = propane_butane();
    let request = Request::blend_critical_point(&blend, Some(350.0), Some(0.002)).unwrap();
    assert_eq!((request.kind(), request.components()), (7, 2));
    assert_eq!(*request.block(), Numbers::of(&blend, 0, 350.0, 0.0, 0.002).block());
    let request = Request::critical_point_at_temperature(&blend, 400.0, Some(0.002)).unwrap();
    assert_eq!((request.kind(), request.components()), (8, 2));
    assert_eq!(*request.block(), Numbers::of(&blend, 0, 400.0, 0.0, 0.002).block());
    let request = Request::critical_point_at_pressure(&blend, 0.29, Some(400.0), Some(0.002)).unwrap();
    assert_eq!((request.kind(), request.components()), (9, 2));
    assert_eq!(*request.block(), Numbers::of(&blend, 0, 400.0, 0.29, 0.002).block());
}

/// The sealed bytes of `answer_block`; bytes 0 to 15 and those from 64 on stay.
fn sealed_bytes(request: &Request) -> Vec<u8> {
    let mut buffer = [0xA5; 80];
    answer_block(request.kind(), request.components(), request.block(), &mut buffer).unwrap();
    assert!(buffer[..16].iter().chain(&buffer[64..]).all(|byte| *byte == 0xA5));
    buffer[16..64].to_vec()
}

/// As many cases on one board as its queues hold, eight in each.
#[test]
fn the_board_hands_out_what_answer_gives() {
    for cases in cases().chunks(4 * 8) {
        come_out_of_one_board(cases);
    }
}

fn come_out_of_one_board(cases: &[(Request, &str)]) {
    let mut board = Board::new();
    let mut waiting = Vec::new();
    for (i, (request, expected)) in cases.iter().enumerate() {
        let ticket = board.submit(i as u64 % QUEUES, request).expect(expected);
        waiting.push((ticket, request, expected));
    }
    // no queue takes longer than eight jobs of the longest span
    for _ in 0..QUEUES * 8 * Kind::StableDensity.span() {
        let Some(record) = board.turn().unwrap() else {
            continue;
        };
        let at = waiting.iter().position(|(ticket, ..)| *ticket == record.ticket());
        let (_, request, expected) = waiting.remove(at.expect("a ticket that was given"));
        assert_eq!(record.kind().map(Kind::number), Ok(request.kind()));
        assert_eq!(line(request.kind(), &record.sealed()), *expected);
        assert_eq!(record.as_bytes()[16..], sealed_bytes(request), "{expected}");
        assert_eq!(record.as_bytes()[56..], [0; 8], "{expected}");
        assert_eq!(record.public(), &record.as_bytes()[..16]);
        assert_eq!(record.public()[10..], [0; 6]);
        assert_eq!(record.sealed(), answer(request).unwrap());
    }
    assert!(waiting.is_empty());
}

/// Propane and butane in any proportion have their critical temperature between those of the two, the higher the more
/// butane there is.
#[test]
fn critical_temperatures_of_blends_lie_between_those_of_their_components() {
    let temperature = |request: Result<Request, Refusal>| {
        let [temperature, ..] = answer(&request.unwrap()).unwrap().outcome().unwrap();
        temperature
    };
    let of_alone = |component| temperature(Request::critical_point(&propane_butane(), component, None, None));
    let mut line = vec![of_alone(0)];
    for butane in 1..20 {
        let butane = f64::from(butane) / 20.0;
        let blend =
            Blend { fractions: vec![1.0 - butane, butane], interactions: vec![0.0], ..propane_butane() };
        line.push(temperature(Request::blend_critical_point(&blend, None, None)));
    }
    line.push(of_alone(1));
    assert!(line.is_sorted_by(|lower, upper| lower < upper), "{line:?}");
}

fn values_of(request: Result<Request, Refusal>) -> [f64; 3] {
    answer(&request.unwrap()).unwrap().outcome().unwrap()
}

/// Whether two numbers are the same but for one part in 10^9.
fn near(found: f64, expected: f64) -> bool {
    (found / expected - 1.0).abs() < 1e-9
}

/// Temperatures between those of the components have a point of the line each, with the less propane the higher they
/// are. Of its composition, kind 7 finds the same point; kind 1 comes to its density at a pressure at which kind 9
/// comes to it too.
#[test]
fn points_of_the_critical_line_are_those_of_other_kinds() {
    let (mut before, blend) = (1.0, propane_butane());
    for temperature in (371..=424).map(f64::from) {
        let values = values_of(Request::critical_point_at_temperature(&blend, temperature, None));
        let point = BinaryCriticalPoint::at_temperature(temperature, values);
        let [propane, butane] = point.fractions();
        assert!(0.0 < propane && propane < before && (propane + butane - 1.0).abs() < 1e-15, "{temperature}");
        before = propane;

        let there = Blend { fractions: vec![propane, butane], ..blend.clone() };
        let [found, density, _] = values_of(Request::blend_critical_point(&there, None, None));
        assert!(near(found, temperature) && near(density, point.density()), "{temperature}");

        // the pressure lies below the ideal gas's
        let (mut low, mut high) = (0.0, point.density() * temperature);
        for _ in 0..60 {
            let middle = 0.5 * (low + high);
            let start = InitialDensity(point.density());
            let [density, ..] = values_of(Request::density(&there, temperature, middle, start));
            if density < point.density() {
                low = middle;
            } else {
                high = middle;
            }
        }
        let request =
            Request::critical_point_at_pressure(&there, low, Some(temperature), Some(point.density()));
        let found = BinaryCriticalPoint::at_pressure(low, values_of(request));
        assert!(
            near(found.temperature, temperature) && near(found.density(), point.density()),
            "{temperature}"
        );
    }
}

#[test]
fn a_point_of_the_critical_line_has_its_sum_and_fractions() {
    let point = BinaryCriticalPoint::at_temperature(400.0, [0.003, 0.001, 0.0]);
    let expected =
        BinaryCriticalPoint { temperature: 400.0, pressure: None, partial_densities: [0.003, 0.001] };
    assert_eq!(point, expected);
    assert_eq!((point.density(), point.fractions()), (0.004, [0.75, 0.25]));
    let point = BinaryCriticalPoint::at_pressure(0.29, [400.0, 0.003, 0.001]);
    assert_eq!(point, BinaryCriticalPoint { pressure: Some(0.29), ..expected });
}

/// The densities that `oracle --trace` printed for the first case, evaluation by evaluation.
const DENSITIES: [u64; 9] = [
    0x3F81AF3A371CF348,
    0x3F808C421F1C7A1F,
    0x3F7E98026D7E576A,
    0x3F7C9157B8A011EE,
    0x3F7B91BE8F508C77,
    0x3F7B606F15160581,
    0x3F7B5EDB656E8242,
    0x3F7B5EDAFF5A3D2A,
    0x3F7B5EDAFF5A36A6,
];

/// The sums of the partial densities that it printed for the first cases of kinds 8 and 9.
const SUMS_AT_TEMPERATURE: [u64; 4] =
    [0x3F6538AC4222BD89, 0x3F63FCF8604ECDDE, 0x3F63D8AEEBA29C8E, 0x3F63D880F199489C];
const SUMS_AT_PRESSURE: [u64; 7] = [
    0x3F6538AC4222BD89,
    0x3F64A39FC0191DA4,
    0x3F63FD6A6C400958,
    0x3F634458574FF733,
    0x3F627353AB18A142,
    0x3F624217AEEE6B77,
    0x3F62424D8546F99A,
];

/// A look shows the lesser of the turns had and the evaluations of the whole search, and the density of the latest one.
#[test]
fn a_look_shows_the_latest_evaluation() {
    let first = |kind| {
        cases().into_iter().map(|(request, _)| request).find(|request| request.kind() == kind).unwrap()
    };
    looks_show(&first(1), &DENSITIES);
    looks_show(&first(8), &SUMS_AT_TEMPERATURE);
    looks_show(&first(9), &SUMS_AT_PRESSURE);
}

fn looks_show(request: &Request, densities: &[u64]) {
    let densities: Vec<f64> = densities.iter().map(|bits| f64::from_bits(*bits)).collect();
    let mut board = Board::new();
    board.submit(0, request).unwrap();
    for turns in 1..=20 {
        assert_eq!(board.turn(), Ok(None));
        let evaluations = densities.len().min(turns);
        let expected = Look { evaluations: evaluations as u64, density: densities[evaluations - 1] };
        assert_eq!(board.look(0), Ok(expected), "{turns}");
        for _ in 0..3 {
            assert_eq!(board.turn(), Ok(None));
            assert_eq!(board.look(0), Ok(expected), "{turns}");
        }
    }
}

#[test]
fn threads_get_the_same_answers() {
    fn shared<T: Send + Sync>() {}
    shared::<(Board, Request, Record, Sealed, Refusal)>();
    let work = || {
        let request = Request::pressure_spinodal(&propane(), 250.0, 0.003).unwrap();
        let expected = "3 0 3FB435DD4E70E568 3F4635F103D24363 C1124A53E660EFE7 9";
        let mut board = Board::new();
        board.submit(0, &request).unwrap();
        let turns = (0..QUEUES * Kind::PressureSpinodal.span()).filter_map(|_| board.turn().unwrap());
        let records: Vec<Record> = turns.collect();
        let [record] = &records[..] else { panic!("{} records", records.len()) };
        assert_eq!(line(request.kind(), &record.sealed()), expected);
        board
    };
    let threads: Vec<_> = (0..4).map(|_| std::thread::spawn(work)).collect();
    let boards: Vec<_> = threads.into_iter().map(|thread| thread.join().unwrap()).collect();
    assert!(boards.iter().all(|board| *board == boards[0]));
}
