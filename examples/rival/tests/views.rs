//! The comparison of public views can fail, the engine that replies when it stops is told apart, the board is not.
//! Evaluations are the oracle's, moments and refusals document 01's.
use rival::calls::calls;
use rival::engine::moments;
use rival::mixes::Mix;
use rival::public::{condensed, first_difference, run, Call, Fields, Public};

fn fields(calls: &[Call]) -> Vec<Fields> {
    calls.iter().map(Call::fields).collect()
}

/// From `oracle --batch` on the questions' 642 bytes.
#[test]
fn the_engine_is_told_apart() {
    let moments = moments([&Mix::winter(), &Mix::catalogue()]).unwrap();
    let evaluations: Vec<(u64, [u64; 2])> = moments
        .iter()
        .map(|row| (row.kind, row.evaluations))
        .collect();
    let expected = [
        (1, [3, 3]),
        (1, [9, 8]),
        (2, [15, 14]),
        (4, [6, 6]),
        (4, [9, 8]),
        (7, [5, 6]),
        (5, [5, 6]),
        (5, [5, 5]),
        (8, [5, 5]),
        (9, [8, 6]),
    ];
    assert_eq!(evaluations, expected);
    let told: Vec<bool> = moments.iter().map(|row| row.told_apart()).collect();
    assert_eq!(
        told,
        [false, true, true, false, true, true, true, false, false, true]
    );
}

#[test]
fn the_board_is_not_told_apart() {
    let winter = calls(&Mix::winter(), false).unwrap();
    let catalogue = calls(&Mix::catalogue(), true).unwrap();
    assert_ne!(winter, catalogue);
    assert_eq!(
        first_difference(&fields(&winter), &fields(&catalogue)),
        None
    );
    let (view, owned) = run(&winter);
    let (other_view, other_owned) = run(&catalogue);
    assert_eq!(first_difference(&view, &other_view), None);
    // fifteen records and four looks: each differs
    assert_eq!(owned.differing(&other_owned), (19, 19));
    assert_eq!(owned.differing(&owned), (19, 0));
}

/// The percentages are refused by 17, inside the sealed part alone.
#[test]
fn unfit_data_are_refused_in_the_sealed_part() {
    let (_, owned) = run(&calls(&Mix::catalogue(), true).unwrap());
    let statuses: Vec<u64> = owned
        .records
        .iter()
        .map(|(_, record)| record.sealed().status)
        .collect();
    assert_eq!(statuses, [0, 0, 0, 0, 0, 0, 0, 17, 0, 0, 0, 0, 0, 0, 0]);
}

/// A job's record comes with the last turn of its span, counted in its queue's turns.
#[test]
fn records_come_by_the_published_schedule() {
    let list = calls(&Mix::winter(), false).unwrap();
    let (view, _) = run(&list);
    let turns = list
        .iter()
        .zip(&view)
        .filter(|(call, _)| matches!(call, Call::Turn { buffer: 64 }));
    let released: Vec<(usize, [u8; 16])> = turns
        .enumerate()
        .filter_map(|(turn, (_, seen))| match seen {
            Public::Record(bytes) => Some((turn, *bytes)),
            _ => None,
        })
        .collect();
    // ticket, kind, queue, and the queue's turns until the job is out
    let jobs = [
        (0, 4, 0, 30),
        (1, 4, 0, 60),
        (2, 4, 0, 90),
        (3, 4, 0, 120),
        (4, 4, 0, 150),
        (0, 5, 2, 150),
        (5, 4, 0, 180),
        (1, 4, 2, 180),
        (6, 4, 0, 210),
        (7, 4, 0, 240),
        (2, 7, 2, 330),
        (3, 8, 2, 530),
        (4, 9, 2, 730),
        (0, 1, 1, 3101),
        (0, 2, 3, 6204),
    ];
    let expected = jobs.map(|(ticket, kind, queue, own)| {
        let mut bytes = [0; 16];
        (bytes[0], bytes[8], bytes[9]) = (ticket, kind, queue);
        (4 * (own - 1) + usize::from(queue), bytes)
    });
    assert_eq!(released, expected);
}

/// After 34 turns the next is queue 2's; queue 0 holds eight jobs.
#[test]
fn quotes_are_by_the_published_schedule() {
    let mut list = calls(&Mix::winter(), false).unwrap();
    // before the turns until the longest job is out and the looks after these
    let at = list.len() - (4 * 6204 - 34) - 4;
    let asked = [(4, 4), (1, 0), (0, 4), (1, 4), (2, 4), (3, 4)];
    list.splice(
        at..at,
        asked.map(|(queue, kind)| Call::Quote { queue, kind }),
    );
    let (view, _) = run(&list);
    let seen = &view[at..at + asked.len()];
    assert_eq!(seen[..3], [1, 2, 4].map(Public::Refused));
    let quoted: Vec<u64> = seen
        .iter()
        .filter_map(|seen| match seen {
            Public::Quoted(turns) => Some(*turns),
            _ => None,
        })
        .collect();
    // the queue's turns that are left of its jobs, 30 of its own, and how far off its first turn is
    let queues = [
        (3101 - 9, 3),
        (150 + 30 + 150 + 200 + 200 - 8, 0),
        (6204 - 8, 1),
    ];
    let expected = queues.map(|(left, away)| 4 * (left + 30 - 1) + away + 1);
    assert_eq!(quoted, expected);
}

#[test]
fn refused_calls_are_seen_by_their_numbers() {
    let (view, _) = run(&calls(&Mix::winter(), false).unwrap());
    let refused: Vec<u64> = view
        .iter()
        .filter_map(|seen| match seen {
            Public::Refused(number) => Some(*number),
            _ => None,
        })
        .collect();
    assert_eq!(refused, [4, 1, 2, 3, 8, 5, 1, 7, 7, 7, 7, 7]);
}

#[test]
fn a_changed_view_differs_where_it_was_changed() {
    let (view, _) = run(&calls(&Mix::winter(), false).unwrap());
    assert_eq!(first_difference(&view, &view.clone()), None);
    // every call but the turns without a record, and some of those
    let tried = |&(place, seen): &(usize, &Public)| *seen != Public::NoRecord || place % 997 == 0;
    for (place, seen) in view.iter().enumerate().filter(tried) {
        let mut changed = view.clone();
        changed[place] = match *seen {
            Public::Refused(number) => Public::Refused(number + 1),
            Public::Ticket(number) => Public::Ticket(number + 1),
            Public::NoRecord => Public::Record([0; 16]),
            Public::Record(mut bytes) => {
                bytes[15] ^= 1;
                Public::Record(bytes)
            }
            Public::Looked => Public::Refused(7),
            Public::Quoted(turns) => Public::Quoted(turns + 1),
        };
        assert_eq!(first_difference(&view, &changed), Some(place));
        assert_eq!(first_difference(&changed, &view), Some(place));
    }
    let shorter = &view[..view.len() - 1];
    assert_eq!(first_difference(&view, shorter), Some(shorter.len()));
    assert_eq!(first_difference(shorter, &view), Some(shorter.len()));
}

/// Two runs whose public fields differ have different views: the comparison is of what the board does.
#[test]
fn another_kind_is_seen() {
    let list = calls(&Mix::winter(), false).unwrap();
    let mut other = list.clone();
    let Call::Submit { kind, .. } = &mut other[4] else {
        panic!("the fifth call is a submit")
    };
    *kind = 3;
    assert_eq!(first_difference(&fields(&list), &fields(&other)), Some(4));
    // queue 2's second record is that job's, in the same turn, with its kind in the public bytes
    let place = 23 + 4 + 4 * 179 + 2;
    assert_eq!(first_difference(&run(&list).0, &run(&other).0), Some(place));
}

#[test]
fn only_equal_turns_become_one_line() {
    let turn = Fields::Turn { buffer: 64 };
    let fields = [turn, turn, turn, turn, Fields::Turn { buffer: 63 }];
    let first = [Public::NoRecord; 5];
    let mut second = first;
    second[2] = Public::Record([0; 16]);
    let lines = condensed(&fields, &first, &second);
    let places: Vec<(usize, usize)> = lines.iter().map(|line| (line.first, line.last)).collect();
    assert_eq!(places, [(0, 1), (2, 2), (3, 3), (4, 4)]);
}
