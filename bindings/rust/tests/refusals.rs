//! Every refusal that a call can give, in document 01's order of tests, with board and buffers as they were. Refusals
//! by the data come in the record, with the numbers that the maker of requests gives.

mod common;

use common::{damaged_board, eight_components, propane, propane_butane, Numbers};
use peng_robinson_board::DensityInitialization::{InitialDensity, Liquid};
use peng_robinson_board::*;

/// The kinds that are for two components.
const OF_TWO: [u64; 3] = [7, 8, 9];

fn spinodal() -> Request {
    Request::pressure_spinodal(&propane(), 300.0, 0.001).unwrap()
}

/// A board with eight jobs in queue 0, the first of which runs.
fn full_board() -> Board {
    let mut board = Board::new();
    for _ in 0..8 {
        board.submit(0, &spinodal()).unwrap();
    }
    board.turn().unwrap();
    board
}

/// Boards that are refused by 6: other lengths, and a turn out of its range.
fn refused_boards() -> Vec<Board> {
    let lengths = [0, 1, BOARD_BYTES - 1, BOARD_BYTES + 1, 2 * BOARD_BYTES];
    let boards = lengths.map(|length| Board::from_bytes(vec![0; length]));
    boards.into_iter().chain([damaged_board()]).collect()
}

#[test]
fn submit_tests_6_1_2_3_8_4() {
    let refused = |mut board: Board, queue, kind, n, length, expected| {
        let before = board.clone();
        let answer = board.submit_block(queue, kind, n, &vec![0xA5; length]);
        assert_eq!(answer, Err(expected));
        assert_eq!(board, before, "{expected}");
    };
    for board in refused_boards() {
        refused(board.clone(), 4, 0, 0, 0, Refusal::Board);
        refused(board, 0, 3, 1, 640, Refusal::Board);
    }
    for queue in [4, 1 << 8, 1 << 32, u64::MAX] {
        refused(full_board(), queue, 0, 0, 0, Refusal::Queue);
    }
    for kind in [0, 10, 1 + (1 << 8), 7 + (1 << 32), u64::MAX] {
        refused(full_board(), 0, kind, 0, 0, Refusal::Kind);
    }
    for n in [0, 9, 1 + (1 << 8), 2 + (1 << 32), u64::MAX] {
        refused(full_board(), 0, 3, n, 0, Refusal::Components);
        for kind in OF_TWO {
            refused(full_board(), 0, kind, n, 0, Refusal::Components);
        }
    }
    for n in [1, 3, 4, 5, 6, 7, 8] {
        for kind in OF_TWO {
            refused(full_board(), 0, kind, n, 640, Refusal::Components);
        }
    }
    for length in [0, 639, 641, 65_536 + 640] {
        refused(full_board(), 0, 3, 1, length, Refusal::BlockLength);
    }
    refused(full_board(), 0, 3, 1, 640, Refusal::QueueFull);
    // with nothing wrong: N of 8 and any block, on a queue with a place
    let mut board = full_board();
    assert_eq!(board.submit_block(3, 6, 8, &[0xA5; 640]), Ok(Ticket { queue: 3, number: 0 }));
    for (kind, number) in OF_TWO.into_iter().zip(1..) {
        assert_eq!(board.submit_block(3, kind, 2, &[0xA5; 640]), Ok(Ticket { queue: 3, number }));
    }
}

#[test]
fn submit_refuses_requests_of_any_bytes_alike() {
    let request = |kind, n| {
        let mut bytes = spinodal().to_bytes();
        bytes[..2].copy_from_slice(&[kind, n]);
        Request::from_bytes(&bytes).unwrap()
    };
    let mut board = Board::new();
    let fresh = board.clone();
    assert_eq!(board.submit(4, &request(0, 0)), Err(Refusal::Queue));
    assert_eq!(board.submit(0, &request(0, 0)), Err(Refusal::Kind));
    assert_eq!(board.submit(0, &request(255, 9)), Err(Refusal::Kind));
    assert_eq!(board.submit(0, &request(3, 0)), Err(Refusal::Components));
    assert_eq!(board.submit(0, &request(3, 9)), Err(Refusal::Components));
    for kind in [7, 8, 9] {
        assert_eq!(board.submit(0, &request(kind, 1)), Err(Refusal::Components));
        assert_eq!(answer(&request(kind, 1)), Err(Refusal::Components));
    }
    assert_eq!(answer(&request(10, 0)), Err(Refusal::Kind));
    assert_eq!(answer(&request(3, 255)), Err(Refusal::Components));
    assert_eq!(board, fresh);
}

#[test]
fn turn_tests_6_5() {
    let refused = |mut board: Board, length, expected| {
        let before = board.clone();
        let mut record = vec![0xA5; length];
        assert_eq!(board.turn_into(&mut record), Err(expected));
        assert_eq!(board, before, "{expected}");
        assert!(record.iter().all(|byte| *byte == 0xA5), "{expected}");
    };
    for board in refused_boards() {
        refused(board.clone(), 0, Refusal::Board);
        refused(board.clone(), 64, Refusal::Board);
        let mut turned = board.clone();
        assert_eq!(turned.turn(), Err(Refusal::Board));
        assert_eq!(turned, board);
    }
    for length in [0, 1, 63] {
        refused(full_board(), length, Refusal::RecordLength);
        refused(Board::new(), length, Refusal::RecordLength);
    }
}

/// A record goes into the first 64 bytes and no others; a turn without one leaves the buffer.
#[test]
fn turn_writes_64_bytes_or_none() {
    let mut board = Board::new();
    board.submit(0, &spinodal()).unwrap();
    let mut record = [0xA5; 100];
    for _ in 0..116 {
        assert_eq!(board.turn_into(&mut record), Ok(false));
        assert_eq!(record, [0xA5; 100]);
    }
    assert_eq!(board.turn_into(&mut record), Ok(true));
    assert_eq!(record[64..], [0xA5; 36]);
    let record = Record::from_bytes(&record[..64]).unwrap();
    assert_eq!(record.sealed(), answer(&spinodal()).unwrap());
}

#[test]
fn look_tests_6_1_7() {
    for board in refused_boards() {
        assert_eq!(board.look(4), Err(Refusal::Board));
        assert_eq!(board.look(0), Err(Refusal::Board));
    }
    let mut board = Board::new();
    for queue in [4, 1 << 8, 1 << 32, u64::MAX] {
        assert_eq!(board.look(queue), Err(Refusal::Queue));
    }
    for queue in 0..QUEUES {
        assert_eq!(board.look(queue), Err(Refusal::NoRunningJob));
    }
    // a job that waits does not run
    board.submit(0, &spinodal()).unwrap();
    assert_eq!(board.look(0), Err(Refusal::NoRunningJob));
    board.turn().unwrap();
    let before = board.clone();
    assert_eq!(board.look(0).map(|look| look.evaluations), Ok(1));
    assert_eq!(board.look(1), Err(Refusal::NoRunningJob));
    assert_eq!(board, before);
}

#[test]
fn quote_tests_6_1_2_4() {
    for board in refused_boards() {
        assert_eq!(board.quote(4, 0), Err(Refusal::Board));
        assert_eq!(board.quote(0, 3), Err(Refusal::Board));
    }
    let board = full_board();
    for queue in [4, 1 << 8, 1 << 32, u64::MAX] {
        assert_eq!(board.quote(queue, 0), Err(Refusal::Queue));
        assert_eq!(board.quote(queue, 3), Err(Refusal::Queue));
    }
    for kind in [0, 10, 1 + (1 << 8), 7 + (1 << 32), u64::MAX] {
        assert_eq!(board.quote(0, kind), Err(Refusal::Kind));
        assert_eq!(board.quote(1, kind), Err(Refusal::Kind));
    }
    for kind in 1..=9 {
        assert_eq!(board.quote(0, kind), Err(Refusal::QueueFull));
        assert!(board.quote(1, kind).is_ok());
    }
    assert_eq!(board, full_board());
}

#[test]
fn answer_tests_2_3_8_5() {
    let refused = |kind, n, block: usize, record: usize, expected| {
        let mut buffer = vec![0xA5; record];
        assert_eq!(answer_block(kind, n, &vec![0; block], &mut buffer), Err(expected));
        assert!(buffer.iter().all(|byte| *byte == 0xA5), "{expected}");
    };
    for kind in [0, 10, u64::MAX] {
        refused(kind, 0, 0, 0, Refusal::Kind);
    }
    for n in [0, 9, u64::MAX] {
        refused(1, n, 0, 0, Refusal::Components);
    }
    for n in [0, 1, 3, 8, 9, u64::MAX] {
        for kind in OF_TWO {
            refused(kind, n, 0, 0, Refusal::Components);
        }
    }
    for length in [0, 639, 641] {
        refused(1, 1, length, 0, Refusal::BlockLength);
    }
    for length in [0, 63] {
        refused(1, 1, 640, length, Refusal::RecordLength);
    }
    assert_eq!(answer_block(1, 1, &[0; 640], &mut [0; 64]), Ok(()));
}

/// Numbers with faults of every kind, and with the first of these taken away one by one, in document 01's order.
fn faults() -> [(Numbers, Refusal); 6] {
    let good = propane_butane();
    let mut numbers = Numbers::of(&good, 3, f64::NAN, f64::NAN, f64::NAN);
    numbers.coefficients[3] = -425.12;
    numbers.interactions[0] = f64::INFINITY;
    numbers.fractions[1] = -0.0;
    let coefficients = numbers.clone();
    numbers.coefficients = Numbers::of(&good, 0, 0.0, 0.0, 0.0).coefficients;
    let interactions = numbers.clone();
    numbers.interactions[0] = 0.003;
    let fractions = numbers.clone();
    numbers.fractions = vec![60.0, 40.0];
    let sum = numbers.clone();
    numbers.fractions = vec![0.6, 0.4];
    let conditions = numbers.clone();
    (numbers.temperature, numbers.pressure) = (300.0, 0.05);
    let choice = numbers;
    [
        (coefficients, Refusal::Coefficients),
        (interactions, Refusal::Interactions),
        (fractions, Refusal::Fractions),
        (sum, Refusal::SumOfFractions),
        (conditions, Refusal::Conditions),
        (choice, Refusal::Choice),
    ]
}

fn made(numbers: &Numbers) -> Result<Request, Refusal> {
    let components = numbers.coefficients.chunks(3).map(|c| Component::new(c[0], c[1], c[2]));
    let blend = Blend {
        components: components.collect(),
        interactions: numbers.interactions.clone(),
        fractions: numbers.fractions.clone(),
    };
    let Numbers { choice, temperature, pressure, start, .. } = *numbers;
    Request::new(Kind::Density, &blend, Conditions { choice, temperature, pressure, start })
}

#[test]
fn requests_test_3_11_12_13_14_17_15_16() {
    let (worst, _) = faults()[0].clone();
    for n in [0, 9, 256, 257] {
        let numbers = Numbers { coefficients: vec![f64::NAN; 3 * n], ..worst.clone() };
        assert_eq!(made(&numbers), Err(Refusal::Components), "{n}");
    }
    for (interactions, fractions) in [(0, 2), (2, 2), (1, 1), (1, 3), (1, 0), (4, 2)] {
        let (interactions, fractions) = (vec![f64::NAN; interactions], vec![f64::NAN; fractions]);
        let numbers = Numbers { interactions, fractions, ..worst.clone() };
        assert_eq!(made(&numbers), Err(Refusal::Pairs));
    }
    for (numbers, expected) in faults() {
        assert_eq!(made(&numbers), Err(expected));
    }
    let (mut numbers, _) = faults()[5].clone();
    numbers.choice = 2;
    assert_eq!(made(&numbers), Err(Refusal::Conditions), "a start that is not finite");
    // not used with a liquid
    numbers.choice = 1;
    assert!(made(&numbers).is_ok());
}

#[test]
fn records_have_the_refusals_of_the_data() {
    let status = |block: &[u8]| {
        let mut record = [0; 64];
        answer_block(1, 2, block, &mut record).unwrap();
        let answered = Record::from_bytes(&record).unwrap().sealed();
        // the submit of bad data is accepted, and its job takes as many turns as any other
        let mut board = Board::new();
        board.submit_block(0, 1, 2, block).unwrap();
        for _ in 0..4 * 3_100 {
            assert_eq!(board.turn(), Ok(None));
        }
        let sealed = board.turn().unwrap().expect("a record").sealed();
        assert_eq!(sealed, answered);
        assert_eq!((sealed.values, sealed.evaluations), ([0.0; 3], 0));
        assert!(sealed.values.iter().all(|value| value.to_bits() == 0));
        sealed.outcome().unwrap_err()
    };
    for (numbers, expected) in faults() {
        assert_eq!(status(&numbers.block()), expected);
        // an offset of 15, which the pairs must not have, comes before all others
        let mut block = numbers.block();
        block[0] = 15;
        assert_eq!(status(&block), Refusal::Pairs);
    }
}

/// Fractions may differ from 1 by 1e-9 in sum, not by more. Kinds 5 and 6 do not read them.
#[test]
fn sums_of_fractions() {
    let blend = |sum: f64| Blend { fractions: vec![sum], ..propane() };
    for sum in [1.0, 1.0 + 0.9e-9, 1.0 - 0.9e-9] {
        assert!(Request::stable_density(&blend(sum), 300.0, 0.05).is_ok());
    }
    for sum in [1.0 + 1.1e-9, 1.0 - 1.1e-9, 0.0, 100.0, f64::MAX] {
        let blend = blend(sum);
        assert_eq!(Request::density(&blend, 300.0, 0.05, Liquid), Err(Refusal::SumOfFractions));
        assert_eq!(Request::stable_density(&blend, 300.0, 0.05), Err(Refusal::SumOfFractions));
        assert_eq!(Request::pressure_spinodal(&blend, 300.0, 0.01), Err(Refusal::SumOfFractions));
        assert_eq!(Request::spinodal_branch(&blend, 300.0, Phase::Vapor), Err(Refusal::SumOfFractions));
        assert!(Request::critical_point(&blend, 0, None, None).is_ok());
        assert!(Request::stability_spinodals(&blend, 0, 300.0).is_ok());
    }
    for fractions in [[0.6, 0.4], [0.6, 0.4 + 0.9e-9], [0.6, 0.4 - 0.9e-9], [1.0, 0.0]] {
        assert!(of_two(&with_fractions(fractions)).iter().all(Result::is_ok));
    }
    for fractions in [[60.0, 40.0], [0.6, 0.4 + 1.1e-9], [0.6, 0.4 - 1.1e-9], [0.0, 0.0]] {
        all_refused(of_two(&with_fractions(fractions)), Refusal::SumOfFractions);
    }
    for fractions in [[1.4, -0.4], [1.0, -0.0], [f64::NAN, 0.4], [0.6, f64::INFINITY]] {
        all_refused(of_two(&with_fractions(fractions)), Refusal::Fractions);
    }
}

fn with_fractions(fractions: [f64; 2]) -> Blend {
    Blend { fractions: fractions.to_vec(), ..propane_butane() }
}

/// The requests of kinds 7 to 9 for a blend.
fn of_two(blend: &Blend) -> [Result<Request, Refusal>; 3] {
    [
        Request::blend_critical_point(blend, None, None),
        Request::critical_point_at_temperature(blend, 400.0, None),
        Request::critical_point_at_pressure(blend, 0.29, None, None),
    ]
}

fn all_refused<const N: usize>(requests: [Result<Request, Refusal>; N], expected: Refusal) {
    for request in requests {
        assert_eq!(request, Err(expected));
    }
}

/// Kinds 7 to 9 are for two components, and 3 comes before whatever else is wrong with the blend.
#[test]
fn critical_points_of_blends_are_for_two_components() {
    let unfit = |n| {
        let components = vec![Component::new(f64::NAN, f64::NAN, f64::NAN); n];
        Blend { components, interactions: Vec::new(), fractions: Vec::new() }
    };
    for blend in [propane(), eight_components(), unfit(0), unfit(1), unfit(3), unfit(9)] {
        all_refused(of_two(&blend), Refusal::Components);
    }
    all_refused(of_two(&unfit(2)), Refusal::Pairs);
}

/// What each maker of requests uses of its arguments, and what it refuses of them.
#[test]
fn conditions_that_are_used() {
    let blend = propane_butane();
    let refused: Result<Request, Refusal> = Err(Refusal::Conditions);
    for odd in [f64::NAN, f64::INFINITY, f64::NEG_INFINITY] {
        assert_eq!(Request::density(&blend, 300.0, odd, Liquid), refused);
        assert_eq!(Request::density(&blend, 300.0, 0.05, InitialDensity(odd)), refused);
        assert_eq!(Request::stable_density(&blend, 300.0, odd), refused);
        assert_eq!(Request::pressure_spinodal(&blend, 300.0, odd), refused);
        assert_eq!(Request::critical_point(&blend, 0, None, Some(odd)), refused);
        assert_eq!(Request::blend_critical_point(&blend, None, Some(odd)), refused);
        assert_eq!(Request::critical_point_at_temperature(&blend, 400.0, Some(odd)), refused);
        assert_eq!(Request::critical_point_at_pressure(&blend, odd, None, None), refused);
        assert_eq!(Request::critical_point_at_pressure(&blend, 0.29, None, Some(odd)), refused);
    }
    for odd in [f64::NAN, f64::INFINITY, -300.0, -0.0] {
        assert_eq!(Request::density(&blend, odd, 0.05, Liquid), refused);
        assert_eq!(Request::stable_density(&blend, odd, 0.05), refused);
        assert_eq!(Request::pressure_spinodal(&blend, odd, 0.001), refused);
        assert_eq!(Request::spinodal_branch(&blend, odd, Phase::Liquid), refused);
        assert_eq!(Request::critical_point(&blend, 0, Some(odd), None), refused);
        assert_eq!(Request::stability_spinodals(&blend, 0, odd), refused);
        assert_eq!(Request::blend_critical_point(&blend, Some(odd), None), refused);
        assert_eq!(Request::critical_point_at_temperature(&blend, odd, None), refused);
        assert_eq!(Request::critical_point_at_pressure(&blend, 0.29, Some(odd), None), refused);
    }
    // +0 is a temperature in kinds 5, 7 and 9 only, where it is none
    assert_eq!(Request::stability_spinodals(&blend, 0, 0.0), refused);
    assert_eq!(Request::critical_point_at_temperature(&blend, 0.0, None), refused);
    assert_eq!(
        Request::critical_point(&blend, 0, Some(0.0), Some(0.0)),
        Request::critical_point(&blend, 0, None, None)
    );
    assert_eq!(
        Request::blend_critical_point(&blend, Some(0.0), Some(0.0)),
        Request::blend_critical_point(&blend, None, None)
    );
    assert_eq!(
        Request::critical_point_at_temperature(&blend, 400.0, Some(0.0)),
        Request::critical_point_at_temperature(&blend, 400.0, None)
    );
    assert_eq!(
        Request::critical_point_at_pressure(&blend, 0.29, Some(0.0), Some(0.0)),
        Request::critical_point_at_pressure(&blend, 0.29, None, None)
    );
    // any finite pressure is one
    for pressure in [0.0, -0.0, -1.0, f64::MAX, f64::MIN_POSITIVE] {
        assert!(Request::critical_point_at_pressure(&blend, pressure, None, None).is_ok());
    }
    // kinds 7 to 9 use no choice, kinds 7 and 8 no pressure
    let odd = Conditions { choice: u64::MAX, temperature: 400.0, pressure: f64::NAN, start: 0.0 };
    assert!(Request::new(Kind::BlendCriticalPoint, &blend, odd).is_ok());
    assert!(Request::new(Kind::CriticalPointAtTemperature, &blend, odd).is_ok());
    assert_eq!(Request::new(Kind::CriticalPointAtPressure, &blend, odd), refused);
    assert!(Request::new(Kind::CriticalPointAtPressure, &blend, Conditions { pressure: 0.29, ..odd }).is_ok());
    for component in [2, 8, u64::MAX] {
        assert_eq!(Request::critical_point(&blend, component, None, None), Err(Refusal::Choice));
        assert_eq!(Request::stability_spinodals(&blend, component, 300.0), Err(Refusal::Choice));
    }
}
