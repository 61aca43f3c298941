//! A job by steps is the job by a run, and the board hands it out after its span.

use oracle::block::{check, KINDS};
use oracle::board::{self, get, put, span, Answer, BOARD, COUNTERS, FLOATS, RECORD, TURNS};
use oracle::float::bits;
use oracle::generate::requests;
use oracle::stepping::{start, step, Stored};
use oracle::{run_request, trace_request, BLOCK};
use std::collections::BTreeSet;

#[test]
fn steps_are_the_run() {
    let mut seen = BTreeSet::new();
    for request in requests(7, 6000) {
        let (kind, n) = (request[0], request[1]);
        let block: &[u8; BLOCK] = request[2..].try_into().unwrap();
        let (oracle::Answer::Sealed { status, values, .. }, made) = trace_request(kind, n, block)
        else {
            continue;
        };
        let job = check(kind, usize::from(n), block);
        let mut stored = start(&job);
        for (i, evaluation) in made.iter().enumerate() {
            assert!(stored.fits(kind.into()));
            stored = step(&job, &stored);
            assert_eq!(stored.evaluations, i as u64 + 1);
            assert_eq!(bits(stored.latest), bits(evaluation.density));
        }
        assert!(stored.fits(kind.into()) && made.len() as u64 <= span(kind.into()));
        let (by_steps, by_run) = (stored.result(), (status, values));
        assert_eq!(by_steps.0, by_run.0);
        assert_eq!(by_steps.1.map(bits), by_run.1.map(bits));
        assert_eq!(step(&job, &stored).evaluations, made.len() as u64);
        seen.insert((kind, status));
    }
    // the ends of a run of kinds 8 and 9 were among them
    for kind in [8, 9] {
        for status in [0, 22, 23, 27] {
            assert!(seen.contains(&(kind, status)), "{kind} {status}");
        }
    }
}

/// The end of a job that its data refuse: 11 to 17, all else 0.
#[test]
fn stored_data_refusals() {
    for (kind, status) in (1..=KINDS).flat_map(|kind| (0..40).map(move |status| (kind, status))) {
        let mut stored = start(&Err(status));
        assert_eq!(stored.status, status);
        let fits = status == 0 || (11..=17).contains(&status) || (21..=27).contains(&status);
        assert_eq!(stored.fits(kind), fits, "{status}");
        stored.rounds = 1;
        assert_eq!(stored.fits(kind), fits && !(11..=17).contains(&status));
    }
}

/// A request of the kind that ends with this status after so many evaluations or more.
fn request_of(kind: u8, status: u64, least: u64) -> [u8; 2 + BLOCK] {
    let found = |r: &[u8; 2 + BLOCK]| match run_request(r[0], r[1], r[2..].try_into().unwrap()) {
        oracle::Answer::Sealed {
            status: ended,
            evaluations,
            ..
        } => ended == status && evaluations >= least,
        oracle::Answer::Refused(_) => false,
    };
    let mut of_kind = requests(5, 50_000).filter(|r| r[0] == kind);
    of_kind.find(found).expect("a request")
}

/// A board with this job in queue 0, and one turn of it made.
fn begun(request: &[u8; 2 + BLOCK]) -> Vec<u8> {
    let mut board = vec![0; BOARD];
    let (kind, n) = (request[0].into(), request[1].into());
    let said = board::submit(&mut board, 0, kind, n, &request[2..]);
    assert_eq!(said, Answer::Ticket(0));
    for _ in 0..4 {
        assert_eq!(board::turn(&mut board, &mut [0; RECORD]), Answer::Turned(0));
    }
    board
}

/// The rounds left are fewer than 200 in kinds 8 and 9, and than 50 in the others.
#[test]
fn ranges_of_rounds() {
    for kind in 1..=KINDS {
        let below = if kind == 8 || kind == 9 { 200 } else { 50 };
        let mut board = begun(&request_of(kind as u8, 0, 3));
        let before = board::look(&board, 0);
        for rounds in [0, 1, 48, 49, 50, 51, 198, 199, 200, 201, u64::MAX] {
            put(&mut board, COUNTERS + 40, rounds);
            let expected = if rounds < below {
                before
            } else {
                Answer::Refused(6)
            };
            assert_eq!(board::look(&board, 0), expected, "{kind} {rounds}");
        }
        // the other counters have the same ranges in every kind
        put(&mut board, COUNTERS + 40, 0);
        for (i, most) in [(0, 4), (1, 6), (2, 27), (3, 49), (4, 3)] {
            let at = COUNTERS + 8 * i;
            let stood = get(&board, at);
            put(&mut board, at, most);
            assert_eq!(board::look(&board, 0), before, "{kind} {i}");
            put(&mut board, at, most + 1);
            assert_eq!(board::look(&board, 0), Answer::Refused(6), "{kind} {i}");
            put(&mut board, at, stood);
        }
    }
    // where no job is running, nothing of it is tested
    let mut board = vec![0; BOARD];
    put(&mut board, COUNTERS + 40, 200);
    assert!(board::fits(&board));
}

/// What kinds 8 and 9 store: where the next evaluation is made and the rounds left after it. A look shows the sum of the partial
/// densities of the latest one.
#[test]
fn partial_densities_on_the_board() {
    for kind in [8, 9] {
        let request = request_of(kind, 0, 4);
        let block: &[u8; BLOCK] = request[2..].try_into().unwrap();
        let (_, made) = trace_request(kind, 2, block);
        let mut board = vec![0; BOARD];
        let mut record = [0; RECORD];
        board::submit(&mut board, 0, kind.into(), 2, block);
        for (i, evaluation) in made.iter().enumerate() {
            let [rho0, rho1] = evaluation.partial_density.unwrap();
            if i > 0 {
                let counters = [0, 1, 2, 3, 4, 5].map(|i| get(&board, COUNTERS + 8 * i));
                assert_eq!(counters, [0, 1, 0, 0, 0, 199 - i as u64]);
                let stored = [0, 1, 2].map(|i| get(&board, FLOATS + 8 * i));
                let unknowns = match kind {
                    8 => [rho0, rho1, 0.0],
                    _ => [evaluation.temperature, rho0, rho1],
                };
                assert_eq!(stored, unknowns.map(bits));
            }
            for _ in 0..4 {
                board::turn(&mut board, &mut record);
            }
            let shown = Answer::Shown {
                evaluations: i as u64 + 1,
                density: bits(rho0 + rho1),
            };
            assert_eq!(board::look(&board, 0), shown);
        }
        assert_eq!(get(&board, COUNTERS + 8), 0);
        assert_eq!(get(&board, COUNTERS + 40), 0);
    }
}

/// Every tag but 0 is a round in kinds 8 and 9, whatever the counters that they do not use; tag 0 stays as it is.
#[test]
fn any_place_of_two_components() {
    for kind in [8, 9] {
        let request = request_of(kind, 0, 6);
        let job = check(kind, 2, request[2..].try_into().unwrap());
        let begun = step(&job, &start(&job));
        let next = step(&job, &begun);
        assert_eq!((begun.tag, begun.rounds, next.rounds), (1, 198, 197));
        for tag in 1..=6 {
            let odd = Stored {
                stage: 3,
                tag,
                status: 25,
                left: 17,
                way: 2,
                ..begun
            };
            assert_eq!(step(&job, &odd), next);
        }
        if kind == 8 {
            let mut odd = begun;
            odd.floats[2] = 7.0;
            assert_eq!(step(&job, &odd), next);
        }
        // the last round
        let last = step(&job, &Stored { rounds: 0, ..begun });
        assert_eq!((last.tag, last.status, last.rounds), (0, 22, 0));
        assert_eq!(last.floats, [0.0; 3]);
        assert_eq!(last.evaluations, 2);
        assert_eq!(last.latest, next.latest);
        let end = Stored {
            stage: 3,
            tag: 0,
            left: 17,
            ..begun
        };
        assert_eq!(step(&job, &end), end);
        assert_eq!(end.result(), (22, [0.0; 3]));
    }
}

/// A job of kinds 8 and 9 is handed out by the 200th turn of its queue, also where its search has used them all.
#[test]
fn spans_of_two_components() {
    for (kind, status, least) in [(8, 0, 4), (8, 22, 200), (9, 0, 4), (9, 22, 200)] {
        let request = request_of(kind, status, least);
        let mut board = begun(&request);
        let mut record = [0xa5; RECORD];
        for had in 1..200 {
            assert_eq!(get(&board, TURNS), had);
            let written = u64::from(had == 199);
            let said = board::turn(&mut board, &mut record);
            assert_eq!(said, Answer::Turned(written));
            (0..3).for_each(|_| _ = board::turn(&mut board, &mut [0; RECORD]));
        }
        let answer = run_request(kind, 2, request[2..].try_into().unwrap());
        let oracle::Answer::Sealed {
            values,
            evaluations,
            ..
        } = answer
        else {
            panic!("not refused")
        };
        assert_eq!(get(&record, 16), status);
        let floats = [24, 32, 40].map(|at| get(&record, at));
        assert_eq!(floats, values.map(bits));
        assert_eq!(get(&record, 48), evaluations);
    }
}

#[test]
fn a_job_on_the_board() {
    let mut board = [0; BOARD];
    let mut record = [0xa5; RECORD + 1];
    let request = requests(3, 100).find(|r| r[0] == 3 && (1..=8).contains(&r[1]));
    let request = request.unwrap();
    let block: &[u8; BLOCK] = request[2..].try_into().unwrap();
    let (kind, n) = (request[0], request[1]);
    for ticket in 0..8 {
        let said = board::submit(&mut board, 2, kind.into(), n.into(), block);
        assert_eq!(said, Answer::Ticket(ticket));
    }
    let said = board::submit(&mut board, 2, kind.into(), n.into(), block);
    assert_eq!(said, Answer::Refused(4));
    assert_eq!(board::look(&board, 2), Answer::Refused(7));
    // the span's last turn of queue 2 is the 29 * 4 + 3rd
    for turn in 1..119 {
        assert_eq!(
            board::turn(&mut board, &mut record),
            Answer::Turned(0),
            "{turn}"
        );
    }
    assert_eq!(record, [0xa5; RECORD + 1]);
    assert_eq!(board::turn(&mut board, &mut record), Answer::Turned(1));
    let oracle::Answer::Sealed { status, .. } = run_request(kind, n, block) else {
        panic!("not refused")
    };
    assert_eq!(board::get(&record, 16), status);
    assert_eq!(
        record[..16],
        [0, 0, 0, 0, 0, 0, 0, 0, 3, 2, 0, 0, 0, 0, 0, 0]
    );
    assert_eq!(record[RECORD], 0xa5);
}

/// What the sum of the fractions refuses keeps its place for the span, and has zeros behind the status.
#[test]
fn a_refused_sum_on_the_board() {
    let status = |r: &[u8; 2 + BLOCK]| match run_request(r[0], r[1], r[2..].try_into().unwrap()) {
        oracle::Answer::Sealed { status, .. } => status,
        oracle::Answer::Refused(_) => 0,
    };
    let mut refused = requests(3, 20_000).filter(|r| r[0] == 4 && r[1] > 1);
    let request = refused.find(|r| status(r) == 17).unwrap();
    let (mut board, mut record) = ([0; BOARD], [0xa5; RECORD]);
    board::submit(&mut board, 0, 4, request[1].into(), &request[2..]);
    for _ in 0..29 * 4 {
        assert_eq!(board::turn(&mut board, &mut record), Answer::Turned(0));
        let (evaluations, density) = (0, 0);
        let shown = Answer::Shown {
            evaluations,
            density,
        };
        assert_eq!(board::look(&board, 0), shown);
    }
    assert_eq!(board::turn(&mut board, &mut record), Answer::Turned(1));
    assert_eq!(board::get(&record, 16), 17);
    assert_eq!(record[24..], [0; 40]);
}
