//! A quote is the number that a submit and then turns show. Document 02, P7.

use oracle::block::KINDS;
use oracle::board::{
    self, block_at, count_at, fits, get, kind_at, put, span, Answer, ACCEPTED, BOARD, COUNTERS,
    EVALUATIONS, FLOATS, HELD, LATEST, QUARTER, RECORD, TURN, TURNS,
};
use oracle::generate::requests;
use oracle::random::Rng;
use oracle::BLOCK;

type Block = [u8; BLOCK];

/// Blocks by kind and N; one that no request was made for is zeros.
struct Blocks(Vec<(u64, u64, Block)>);

impl Blocks {
    fn new(seed: u64) -> Self {
        let parts = |r: [u8; 2 + BLOCK]| (r[0].into(), r[1].into(), r[2..].try_into().unwrap());
        Blocks(requests(seed, 2000).map(parts).collect())
    }

    fn pick(&self, rng: &mut Rng, kind: u64, n: u64) -> Block {
        let from = rng.below(self.0.len());
        let mut order = self.0[from..].iter().chain(&self.0[..from]);
        let found = order.find(|(k, m, _)| (*k, *m) == (kind, n));
        found.map_or([0; BLOCK], |(_, _, block)| *block)
    }
}

/// An N that fits the kind.
fn count(rng: &mut Rng, kind: u64) -> u64 {
    match kind {
        7..=9 => 2,
        _ => rng.pick(&[1, 1, 2, 8]),
    }
}

/// Mostly kinds 3 and 4, whose spans are short.
fn any_kind(rng: &mut Rng) -> u64 {
    match rng.below(200) {
        0 => 1 + rng.below(2) as u64,
        1..=30 => 5 + rng.below(5) as u64,
        _ => 3 + rng.below(2) as u64,
    }
}

fn any_queue(rng: &mut Rng) -> u64 {
    rng.below(4) as u64
}

fn submit(rng: &mut Rng, blocks: &Blocks, board: &mut [u8], queue: u64, kind: u64) -> Answer {
    let n = count(rng, kind);
    let block = blocks.pick(rng, kind, n);
    board::submit(board, queue, kind, n, &block)
}

fn turn(board: &mut [u8]) -> Option<[u8; RECORD]> {
    let mut record = [0xa5; RECORD];
    match board::turn(board, &mut record) {
        Answer::Turned(0) => None,
        Answer::Turned(1) => Some(record),
        other => panic!("{other:?}"),
    }
}

/// A board after a random run.
fn from_run(rng: &mut Rng, blocks: &Blocks) -> Vec<u8> {
    let mut board = vec![0; BOARD];
    let turns_once_in = 2 + rng.below(5);
    for _ in 0..rng.below(40) {
        if rng.once_in(turns_once_in) {
            let turns = rng.pick(&[1, 2, 3, 5, 50, 150]);
            (0..rng.below(turns) + 1).for_each(|_| _ = turn(&mut board));
        } else {
            let (queue, kind) = (any_queue(rng), any_kind(rng));
            submit(rng, blocks, &mut board, queue, kind);
        }
    }
    board
}

fn quarter(board: &[u8], queue: u64) -> &[u8] {
    &board[QUARTER * queue as usize..][..QUARTER]
}

fn set(board: &mut [u8], queue: u64, at: usize, number: u64) {
    put(board, QUARTER * queue as usize + at, number);
}

/// Submits to a copy of the board and takes turns until the record of this job comes; their number.
fn shown(rng: &mut Rng, blocks: &Blocks, board: &[u8], queue: u64, kind: u64) -> u64 {
    let mut copy = board.to_vec();
    let Answer::Ticket(ticket) = submit(rng, blocks, &mut copy, queue, kind) else {
        panic!("not accepted")
    };
    // eight jobs of the longest span and the turns of the other queues
    for turns in 1..=8 * 4 * 6204 {
        let Some(record) = turn(&mut copy) else {
            continue;
        };
        if (get(&record, 0), u64::from(record[9])) == (ticket, queue) {
            assert_eq!(u64::from(record[8]), kind);
            return turns;
        }
    }
    panic!("not handed out")
}

fn quoted(board: &[u8], queue: u64, kind: u64) -> u64 {
    let before = board.to_vec();
    let answer = board::quote(board, queue, kind);
    assert_eq!(board, before);
    match answer {
        Answer::Quoted(turns) => turns,
        other => panic!("{other:?}"),
    }
}

#[test]
fn quotes_are_what_turns_show() {
    let (mut rng, blocks) = (Rng::new(1), Blocks::new(1));
    let mut by_held = [0; 9];
    let mut running = 0;
    for case in 0..600 {
        let board = from_run(&mut rng, &blocks);
        let (queue, kind) = (any_queue(&mut rng), any_kind(&mut rng));
        let q = quarter(&board, queue);
        let (held, had) = (get(q, HELD), get(q, TURNS));
        by_held[held as usize] += 1;
        if held == 8 {
            let answer = board::quote(&board, queue, kind);
            assert_eq!(answer, Answer::Refused(4));
            continue;
        }
        running += u64::from(had > 0);
        let turns = quoted(&board, queue, kind);
        let by_turns = shown(&mut rng, &blocks, &board, queue, kind);
        assert_eq!(turns, by_turns, "case {case}: queue {queue}, kind {kind}");
    }
    assert!(by_held.iter().all(|cases| *cases > 0), "{by_held:?}");
    assert!(running > 100, "{running}");
}

#[test]
fn every_kind_behind_every_kind() {
    let (mut rng, blocks) = (Rng::new(2), Blocks::new(2));
    for (first, kind) in (1..=KINDS).flat_map(|first| (1..=KINDS).map(move |kind| (first, kind))) {
        let mut board = vec![0; BOARD];
        submit(&mut rng, &blocks, &mut board, 1, first);
        (0..rng.below(100)).for_each(|_| _ = turn(&mut board));
        let turns = quoted(&board, 1, kind);
        let by_turns = shown(&mut rng, &blocks, &board, 1, kind);
        assert_eq!(turns, by_turns, "{kind} behind {first}");
    }
}

/// Anything that changes nothing for the jobs held by the queue: looks, quotes, refused calls, submits elsewhere and behind.
fn beside(rng: &mut Rng, blocks: &Blocks, board: &mut [u8], queue: u64) {
    let other = (queue + 1 + rng.below(3) as u64) % 4;
    let kind = any_kind(rng);
    match rng.below(9) {
        0 => _ = submit(rng, blocks, board, other, kind),
        1 => _ = submit(rng, blocks, board, queue, kind),
        2 => _ = board::look(board, queue),
        3 => _ = board::look(board, other),
        4 => _ = board::quote(board, queue, kind),
        5 => _ = board::quote(board, other, kind),
        // refused, and no accepted turn
        6 => {
            let answer = board::turn(board, &mut [0; RECORD - 1]);
            assert_eq!(answer, Answer::Refused(5));
        }
        7 => {
            let (queue, kind, n) = rng.pick(&[(4, 3, 1), (queue, 0, 1), (queue, 3, 9)]);
            let answer = board::submit(board, queue, kind, n, &[0; BLOCK]);
            assert!(matches!(answer, Answer::Refused(_)));
        }
        _ => {
            let answer = board::submit(board, queue, 3, 1, &[0; BLOCK - 1]);
            assert_eq!(answer, Answer::Refused(8));
        }
    }
}

#[test]
fn calls_beside_the_turns_change_nothing() {
    let (mut rng, blocks) = (Rng::new(3), Blocks::new(3));
    for case in 0..300 {
        let mut board = from_run(&mut rng, &blocks);
        let (queue, kind) = (any_queue(&mut rng), any_kind(&mut rng));
        if get(quarter(&board, queue), HELD) == 8 {
            continue;
        }
        let turns = quoted(&board, queue, kind);
        let Answer::Ticket(ticket) = submit(&mut rng, &blocks, &mut board, queue, kind) else {
            panic!("not accepted")
        };
        for taken in 1..=turns {
            while rng.once_in(3) {
                beside(&mut rng, &blocks, &mut board, queue);
            }
            let record = turn(&mut board);
            let out = record.is_some_and(|r| (get(&r, 0), u64::from(r[9])) == (ticket, queue));
            assert_eq!(out, taken == turns, "case {case}: turn {taken} of {turns}");
        }
    }
}

/// Each accepted turn makes the quote one less while other jobs of the queue wait before it, whichever queue the turn serves.
#[test]
fn a_turn_less_after_each_turn() {
    let (mut rng, blocks) = (Rng::new(4), Blocks::new(4));
    for queue in 0..4 {
        let mut board = vec![0; BOARD];
        for _ in 0..3 {
            submit(&mut rng, &blocks, &mut board, queue, 4);
        }
        let first = quoted(&board, queue, 5);
        for taken in 1..=3 * 30 * 4 - 3 + queue {
            turn(&mut board);
            let turns = quoted(&board, queue, 5);
            // the third job leaves with the last of the turns that serve the queue
            if get(quarter(&board, queue), HELD) > 0 {
                assert_eq!(turns, first - taken, "queue {queue}, turn {taken}");
            }
        }
        assert_eq!(get(quarter(&board, queue), HELD), 0);
    }
}

/// Its first turn is the one that serves the queue; each later one comes four turns after.
#[test]
fn fresh_board() {
    let mut board = vec![0; BOARD];
    let spans = [3101, 6204, 30, 30, 150, 250, 150, 200, 200];
    for (queue, (kind, s)) in (0..4).flat_map(|queue| (1..).zip(spans).map(move |k| (queue, k))) {
        let turns = (s - 1) * 4 + queue + 1;
        assert_eq!(board::quote(&board, queue, kind), Answer::Quoted(turns));
    }
    // queue 0 has just been served: three turns further; the others are one turn nearer
    turn(&mut board);
    assert_eq!(board::quote(&board, 0, 3), Answer::Quoted(117 + 3));
    assert_eq!(board::quote(&board, 1, 3), Answer::Quoted(118 - 1));
    assert_eq!(board::quote(&board, 2, 3), Answer::Quoted(119 - 1));
    assert_eq!(board::quote(&board, 3, 3), Answer::Quoted(120 - 1));
}

#[test]
fn eighth_quoted_ninth_refused() {
    for queue in 0..4 {
        let mut board = vec![0; BOARD];
        for held in 0..8 {
            // the jobs before it have 30 turns each, its own are 150
            let turns = (30 * held + 150 - 1) * 4 + queue + 1;
            assert_eq!(board::quote(&board, queue, 5), Answer::Quoted(turns));
            let answer = board::submit(&mut board, queue, 3, 1, &[0; BLOCK]);
            assert_eq!(answer, Answer::Ticket(held));
        }
        assert_eq!(board::quote(&board, queue, 5), Answer::Refused(4));
        // the other queues hold none
        let other = (queue + 1) % 4;
        let turns = (150 - 1) * 4 + other + 1;
        assert_eq!(board::quote(&board, other, 5), Answer::Quoted(turns));
        // the first leaves, and there is a place again
        let out = (1..=29 * 4 + queue + 1).filter(|_| turn(&mut board).is_some());
        assert_eq!(out.count(), 1);
        let turns = (30 * 7 + 150) * 4;
        assert_eq!(board::quote(&board, queue, 5), Answer::Quoted(turns));
    }
}

/// Numbers that a narrower type would take for the one given.
fn alike(number: u64) -> [u64; 5] {
    [8, 16, 31, 32, 63].map(|bit| number + (1 << bit))
}

#[test]
fn kinds_and_queues_out_of_range() {
    let board = vec![0; BOARD];
    let mut kinds = vec![0, 10, 11, 255, u64::MAX, u64::MAX - 2];
    kinds.extend(alike(3));
    for kind in kinds {
        assert_eq!(board::quote(&board, 2, kind), Answer::Refused(2), "{kind}");
    }
    let mut queues = vec![4, 5, 7, 255, u64::MAX, u64::MAX - 3];
    queues.extend(alike(0));
    queues.extend(alike(3));
    for queue in queues {
        let answer = board::quote(&board, queue, 3);
        assert_eq!(answer, Answer::Refused(1), "{queue}");
    }
    for kind in 1..=9 {
        assert!(matches!(board::quote(&board, 3, kind), Answer::Quoted(_)));
    }
}

/// Of several faults the first of 6, 1, 2, 4 is answered, as submit answers it where nothing else is wrong.
#[test]
fn order_of_refusals() {
    let mut sound = vec![0; BOARD];
    for _ in 0..8 {
        board::submit(&mut sound, 2, 3, 1, &[0; BLOCK]);
    }
    let mut wrong_turn = sound.clone();
    put(&mut wrong_turn, TURN, 4);
    let mut nine_held = sound.clone();
    set(&mut nine_held, 0, HELD, 9);
    let short = sound[..BOARD - 1].to_vec();
    let long = [&sound[..], &[0]].concat();
    let mut seen = Vec::new();
    for (board, fault) in [
        (&sound, false),
        (&wrong_turn, true),
        (&nine_held, true),
        (&short, true),
        (&long, true),
        (&Vec::new(), true),
    ] {
        for (queue, kind) in [2, 1, 4, u64::MAX]
            .into_iter()
            .flat_map(|queue| [3, 0, 10, u64::MAX].map(|kind| (queue, kind)))
        {
            let answer = board::quote(board, queue, kind);
            let mut copy = board.to_vec();
            match board::submit(&mut copy, queue, kind, 2, &[0; BLOCK]) {
                Answer::Ticket(_) => assert!(matches!(answer, Answer::Quoted(_))),
                refused => assert_eq!(answer, refused),
            }
            let first = match (fault, queue, kind) {
                (true, _, _) => 6,
                (_, 4.., _) => 1,
                (_, _, 0 | 10..) => 2,
                (_, 2, _) => 4,
                _ => 0,
            };
            if first > 0 {
                assert_eq!(answer, Answer::Refused(first), "{queue} {kind}");
            }
            seen.push(first);
        }
    }
    assert!([0, 1, 2, 4, 6].iter().all(|first| seen.contains(first)));
}

/// Any board that passes 6: turns had, the turn and the count of accepted jobs are what they are.
#[test]
fn boards_not_reached() {
    let (mut rng, blocks) = (Rng::new(5), Blocks::new(5));
    let mut wrapped = 0;
    for case in 0..400 {
        let mut board = vec![0; BOARD];
        for queue in 0..4 {
            // the first tickets of the queue lie before 2^64, its next at or after it
            let (near_end, any) = (0u64.wrapping_sub(rng.below(9) as u64), rng.bits());
            let count = rng.pick(&[0, 5, near_end, near_end, any]);
            set(&mut board, queue, ACCEPTED, count);
        }
        for _ in 0..4 + rng.below(28) {
            let (queue, kind) = (any_queue(&mut rng), any_kind(&mut rng));
            submit(&mut rng, &blocks, &mut board, queue, kind);
        }
        (0..rng.below(60)).for_each(|_| _ = turn(&mut board));
        put(&mut board, TURN, any_queue(&mut rng));
        for queue in 0..4 {
            let q = quarter(&board, queue);
            let (held, accepted) = (get(q, HELD), get(q, ACCEPTED));
            let slot = (accepted.wrapping_sub(held) % 8) as usize;
            let span = span(get(q, kind_at(slot)));
            if held > 0 && rng.once_in(2) {
                let any = rng.bits() % span;
                let had = rng.pick(&[0, 1, span - 2, span - 1, any]);
                set(&mut board, queue, TURNS, had);
                // a search that has come to its end
                (0..6).for_each(|i| set(&mut board, queue, COUNTERS + 8 * i, 0));
            }
        }
        assert!(fits(&board));
        let (queue, kind) = (any_queue(&mut rng), any_kind(&mut rng));
        let q = quarter(&board, queue);
        let (held, accepted) = (get(q, HELD), get(q, ACCEPTED));
        if held == 8 {
            continue;
        }
        wrapped += u64::from(accepted < held);
        let turns = quoted(&board, queue, kind);
        let by_turns = shown(&mut rng, &blocks, &board, queue, kind);
        assert_eq!(turns, by_turns, "case {case}: queue {queue}, kind {kind}");
    }
    assert!(wrapped > 20, "{wrapped}");
}

/// What the jobs are about, the search's numbers, free slots, counts of accepted jobs and the other queues do not enter.
#[test]
fn public_fields_only() {
    let (mut rng, blocks) = (Rng::new(6), Blocks::new(6));
    let mut quotes = 0;
    for _ in 0..200 {
        let mut board = from_run(&mut rng, &blocks);
        let other = from_run(&mut rng, &blocks);
        let (queue, kind) = (any_queue(&mut rng), any_kind(&mut rng));
        let before = board::quote(&board, queue, kind);
        let q = QUARTER * queue as usize;
        for at in [FLOATS, FLOATS + 8, FLOATS + 16, EVALUATIONS, LATEST] {
            put(&mut board, q + at, rng.bits());
        }
        // stage, way and rounds left
        for (i, below) in [(0, 5), (4, 4), (5, 50)] {
            put(&mut board, q + COUNTERS + 8 * i, rng.bits() % below);
        }
        for slot in 0..8 {
            board[q + block_at(slot)..][..BLOCK].fill_with(|| rng.bits() as u8);
        }
        let (accepted, held) = (get(&board, q + ACCEPTED), get(&board, q + HELD));
        // slots without a job
        for slot in (accepted..accepted + 8 - held).map(|ticket| (ticket % 8) as usize) {
            put(&mut board, q + kind_at(slot), rng.bits());
            put(&mut board, q + count_at(slot), rng.bits());
        }
        // eight tickets less: the same slots
        put(&mut board, q + ACCEPTED, accepted.wrapping_sub(8));
        for i in (0..4).map(|i| QUARTER * i).filter(|i| *i != q) {
            board[i..i + QUARTER].copy_from_slice(&other[i..i + QUARTER]);
        }
        // a job refused by its data stores nothing but its status
        let status = q + COUNTERS + 16;
        if (11..=17).contains(&get(&board, status)) {
            put(&mut board, status, 0);
        }
        assert!(fits(&board));
        assert_eq!(board::quote(&board, queue, kind), before);
        quotes += u64::from(matches!(before, Answer::Quoted(_)));
    }
    assert!(quotes > 100, "{quotes}");
}
