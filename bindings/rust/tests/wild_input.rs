//! Numbers and bytes of any kind: refusals or answers, never a panic, and nothing changed where a call is refused.

mod common;

use common::{damaged_board, propane_butane, turns_taken, Random};
use peng_robinson_board::*;

/// Floats at the ends of the range, on both sides of it, and of any bits.
fn wild_float(random: &mut Random) -> f64 {
    let ends = [0.0, 1.0, 300.0, 4e6, 5e-324, f64::MIN_POSITIVE, f64::MAX, f64::INFINITY, f64::NAN];
    let magnitude = match random.below(12) {
        at @ 0..=8 => ends[at as usize],
        9 => f64::from_bits(random.bits() % (1 << 52)),
        _ => f64::from_bits(random.bits()),
    };
    if random.below(4) == 0 {
        -magnitude
    } else {
        magnitude
    }
}

fn wild_floats(random: &mut Random, length: usize) -> Vec<f64> {
    (0..length).map(|_| wild_float(random)).collect()
}

/// Mostly lists whose lengths fit, so that the numbers themselves are looked at.
fn wild_blend(random: &mut Random) -> Blend {
    let n = random.below(11) as usize;
    let fitting = random.below(4) > 0;
    let pairs = if fitting { n * n.saturating_sub(1) / 2 } else { random.below(60) as usize };
    let fractions = if fitting { n } else { random.below(12) as usize };
    Blend {
        components: (0..n)
            .map(|_| Component::new(wild_float(random), wild_float(random), wild_float(random)))
            .collect(),
        interactions: wild_floats(random, pairs),
        fractions: wild_floats(random, fractions),
    }
}

fn is_status(status: u64) -> bool {
    matches!(status, 0 | 11..=17 | 21..=27)
}

#[test]
fn requests_of_any_numbers() {
    let mut random = Random::new(2);
    let mut written = 0;
    for _ in 0..20_000 {
        let kind = Kind::ALL[random.below(Kind::ALL.len() as u64) as usize];
        let blend = match random.below(3) {
            0 => propane_butane(),
            _ => wild_blend(&mut random),
        };
        let conditions = Conditions {
            choice: if random.below(4) > 0 { random.below(4) } else { random.bits() },
            temperature: wild_float(&mut random),
            pressure: wild_float(&mut random),
            start: wild_float(&mut random),
        };
        match Request::new(kind, &blend, conditions) {
            Ok(request) => {
                written += 1;
                let sealed = answer(&request).unwrap();
                // a written block is never refused by its data
                assert!(matches!(sealed.status, 0 | 21..=27), "{}", sealed.status);
                assert!(sealed.evaluations <= kind.span());
                assert!(sealed.values.iter().all(|value| value.is_finite()));
            }
            Err(refusal) => assert!(matches!(refusal.number(), 3 | 11..=17), "{refusal}"),
        }
    }
    assert!(written > 500, "{written} written");
}

#[test]
fn requests_of_any_bytes() {
    let mut random = Random::new(3);
    for length in (0..700).chain([1 << 16, (1 << 16) + 642]) {
        let bytes = random.bytes(length);
        match Request::from_bytes(&bytes) {
            Ok(request) => assert_eq!((length, &request.to_bytes()[..]), (642, &bytes[..])),
            Err(refusal) => assert!(length != 642 && refusal == Refusal::BlockLength),
        }
    }
    for _ in 0..5_000 {
        let mut bytes = random.bytes(REQUEST_BYTES);
        // now and then a kind, a number of components and pairs that fit
        if random.below(2) == 0 {
            bytes[0] = 1 + random.below(9) as u8;
            bytes[1] = 1 + random.below(8) as u8;
        }
        if random.below(2) == 0 {
            let good = Request::density(&propane_butane(), 300.0, 0.05, DensityInitialization::Vapor);
            bytes[1..18].copy_from_slice(&good.unwrap().to_bytes()[1..18]);
        }
        let request = Request::from_bytes(&bytes).unwrap();
        match answer(&request) {
            Ok(sealed) => assert!(is_status(sealed.status), "{}", sealed.status),
            Err(refusal) => assert!(matches!(refusal, Refusal::Kind | Refusal::Components)),
        }
    }
}

/// Every call with wild numbers on this board. Where all are refused by 6 nothing has changed.
fn call(board: &mut Board, random: &mut Random) {
    let before = board.clone();
    let queue = if random.below(8) == 0 { random.bits() } else { random.below(5) };
    let kind = if random.below(8) == 0 { random.bits() } else { random.below(11) };
    let n = if random.below(8) == 0 { random.bits() } else { random.below(10) };
    let length = if random.below(4) == 0 { random.below(1_000) as usize } else { 640 };
    let block = random.bytes(length);
    let quoted = board.quote(queue, kind);
    assert_eq!(*board, before);
    let submitted = board.submit_block(queue, kind, n, &block);
    // a quote is refused as the submit is, but for N and the block, which it is not told
    match submitted {
        Ok(_) => assert!(quoted.is_ok_and(|turns| (117..=198_528).contains(&turns)), "{quoted:?}"),
        Err(Refusal::Components | Refusal::BlockLength) => {
            assert!(matches!(quoted, Ok(_) | Err(Refusal::QueueFull)), "{quoted:?}")
        }
        Err(refusal) => assert_eq!(quoted, Err(refusal)),
    }
    let mut record = vec![0xA5; random.below(130) as usize];
    let turned = board.turn_into(&mut record);
    let shown = board.look(queue);
    if turned != Ok(true) {
        assert!(record.iter().all(|byte| *byte == 0xA5));
    }
    let refused = [quoted.err(), submitted.err(), turned.err(), shown.err()];
    if refused.contains(&Some(Refusal::Board)) {
        assert_eq!(refused, [Some(Refusal::Board); 4]);
        assert_eq!(*board, before);
    }
    let _ = (board.turn(), format!("{board:?}"));
}

#[test]
fn boards_of_any_length() {
    let mut random = Random::new(4);
    let lengths = (0..200).chain([6_144, 24_576, 24_583, 24_585, 24_648, 24_680, 100_000]);
    for length in lengths {
        for bytes in [vec![0; length], random.bytes(length)] {
            let mut board = Board::from_bytes(bytes.clone());
            call(&mut board, &mut random);
            assert_eq!(board.turn(), Err(Refusal::Board));
            assert_eq!(board.as_bytes(), bytes);
            assert_eq!(board.into_bytes(), bytes);
        }
    }
}

#[test]
fn boards_of_any_bytes() {
    let mut random = Random::new(5);
    for _ in 0..200 {
        let mut board = Board::from_bytes(random.bytes(BOARD_BYTES));
        call(&mut board, &mut random);
        assert_eq!(board.turn(), Err(Refusal::Board));
    }
    call(&mut damaged_board(), &mut random);
}

/// A running board with some bytes changed, most often among those that its searches start from.
#[test]
fn damaged_boards() {
    let mut random = Random::new(6);
    let mut running = Board::new();
    for queue in 0..QUEUES {
        // each queue runs another kind
        let mut kinds = [7, 8, 9, 1, 3, 5, 6];
        kinds.rotate_left(queue as usize);
        for kind in kinds {
            let conditions = Conditions { choice: 1, temperature: 300.0, pressure: 0.05, start: 0.001 };
            let request = Request::new(Kind::try_from(kind).unwrap(), &propane_butane(), conditions);
            running.submit(queue, &request.unwrap()).unwrap();
        }
    }
    for _ in 0..10 {
        running.turn().unwrap();
    }
    let spinodal = Request::pressure_spinodal(&propane_butane(), 300.0, 0.001).unwrap();
    let (mut refused, mut taken) = (0, 0);
    for _ in 0..3_000 {
        let mut bytes = running.as_bytes().to_vec();
        for _ in 0..=random.below(3) {
            let at = if random.below(4) == 0 {
                random.below(24_584)
            } else {
                random.below(4) * 6_144 + random.below(256)
            };
            bytes[at as usize] = random.bits() as u8;
        }
        let mut board = Board::from_bytes(bytes);
        match board.turn() {
            Err(refusal) => {
                assert_eq!(refusal, Refusal::Board);
                refused += 1;
            }
            // a board that passes 6 passes it after every call, and its quotes hold
            Ok(_) => {
                let (queue, request) = (taken / 20 % 4, &spinodal);
                match board.quote(queue, request.kind()) {
                    Ok(turns) if taken % 20 == 0 => assert_eq!(turns_taken(&board, queue, request), turns),
                    Ok(_) | Err(Refusal::QueueFull) => (),
                    Err(refusal) => panic!("{refusal}"),
                }
                for _ in 0..20 {
                    call(&mut board, &mut random);
                    assert_ne!(board.look(0), Err(Refusal::Board));
                }
                taken += 1;
            }
        }
    }
    assert!(refused > 300 && taken > 300, "{refused} refused, {taken} taken");
}

#[test]
fn records_of_any_bytes() {
    let mut random = Random::new(7);
    for length in (0..200).chain([65_536 + 64]) {
        let bytes = random.bytes(length);
        match Record::from_bytes(&bytes) {
            Ok(record) => assert_eq!(record.as_bytes()[..], bytes[..64]),
            Err(refusal) => assert!(length < 64 && refusal == Refusal::RecordLength),
        }
    }
    for _ in 0..1_000 {
        let bytes = random.bytes(64);
        let record = Record::from_bytes(&bytes).unwrap();
        assert_eq!(record.ticket().queue, u64::from(bytes[9]));
        match record.kind() {
            Ok(kind) => assert_eq!(kind.number(), u64::from(bytes[8])),
            Err(refusal) => assert!(!(1..=9).contains(&bytes[8]) && refusal == Refusal::Kind),
        }
        assert_eq!(record.sealed().outcome(), Err(Refusal::Other(record.sealed().status)));
    }
}

#[test]
fn numbers_without_a_name_are_kept() {
    let mut random = Random::new(8);
    for number in (0..300).chain((0..1_000).map(|_| random.bits())) {
        let refusal = Refusal::from(number);
        assert_eq!(refusal.number(), number);
        let named = matches!(number, 1..=8 | 11..=17 | 21..=27);
        assert_eq!(refusal == Refusal::Other(number), !named);
        assert_eq!(Refusal::ALL.contains(&refusal), named);
        assert_eq!(refusal.to_string(), format!("refused by {number}: {}", refusal.message()));
        assert_eq!(Kind::try_from(number).is_ok(), (1..=9).contains(&number));
    }
}

/// Blocks, sealed bytes and boards belong to others: what is printed of a job is public.
#[test]
fn debug_shows_public_fields_only() {
    let request = Request::critical_point(&propane_butane(), 1, None, None).unwrap();
    assert_eq!(format!("{request:?}"), "Request { kind: 5, components: 2, .. }");
    let mut bytes = [0xFF; 64];
    bytes[..16].copy_from_slice(&[7, 0, 0, 0, 0, 0, 0, 0, 5, 2, 0, 0, 0, 0, 0, 0]);
    let record = Record::from_bytes(&bytes).unwrap();
    assert_eq!(format!("{record:?}"), "Record { ticket: Ticket { queue: 2, number: 7 }, kind: 5, .. }");
    assert_eq!(format!("{:?}", Board::new()), "Board { length: 24584, .. }");
}
