//! The gateway on a made-up clock: when it releases, and when it serves what waits.
use std::cell::{Cell, RefCell};
use std::collections::VecDeque;
use std::rc::Rc;

use gateway::clock::{BusyClock, Clock};
use gateway::mixes::{self, Mix};
use gateway::paced::{BoardCalls, Gateway, Reply, Waiting};
use gateway::slots::Slots;
use peng_robinson_board::{Board, Look, Refusal, Request, Ticket};

/// Stands still but for waits and for the calls of a made-up board.
#[derive(Clone, Default)]
struct MadeUpClock {
    now: Rc<Cell<u64>>,
    /// how much later than asked for a wait comes back
    late: u64,
}

impl MadeUpClock {
    fn pass(&self, time: u64) {
        self.now.set(self.now.get() + time);
    }
}

impl Clock for MadeUpClock {
    fn now(&self) -> u64 {
        self.now.get()
    }

    fn wait_until(&mut self, moment: u64) {
        self.now.set(self.now.get().max(moment + self.late));
    }
}

/// Its turns take the times of a list, its other calls 10 ns, and it keeps a list of all calls with their moments.
#[derive(Default)]
struct MadeUpBoard {
    clock: MadeUpClock,
    turns: VecDeque<u64>,
    calls: Rc<RefCell<Vec<(u64, String)>>>,
    tickets: u64,
}

impl MadeUpBoard {
    fn note(&self, call: String) {
        self.calls.borrow_mut().push((self.clock.now(), call));
    }
}

impl BoardCalls for MadeUpBoard {
    fn submit(&mut self, queue: u64, _: &Request) -> Result<Ticket, Refusal> {
        self.note(format!("submit {queue}"));
        self.clock.pass(10);
        self.tickets += 1;
        let number = self.tickets - 1;
        Ok(Ticket { queue, number })
    }

    fn look(&self, queue: u64) -> Result<Look, Refusal> {
        self.note(format!("look {queue}"));
        self.clock.pass(10);
        Err(Refusal::NoRunningJob)
    }

    fn turn_into(&mut self, _: &mut [u8]) -> Result<bool, Refusal> {
        self.note("turn".to_string());
        self.clock.pass(self.turns.pop_front().unwrap_or(50));
        Ok(false)
    }
}

type Calls = Rc<RefCell<Vec<(u64, String)>>>;

const SLOT: u64 = 1000;
const GAP: u64 = 200;
const PERIOD: u64 = SLOT + GAP;

fn slots() -> Slots {
    Slots::new(SLOT, GAP).unwrap()
}

/// A gateway whose turns take these times, with its clock and the list of its calls.
fn made_up(turns: &[u64], late: u64) -> (Gateway<MadeUpClock, MadeUpBoard>, MadeUpClock, Calls) {
    let clock = MadeUpClock {
        now: Rc::default(),
        late,
    };
    let board = MadeUpBoard {
        clock: clock.clone(),
        turns: turns.iter().copied().collect(),
        ..MadeUpBoard::default()
    };
    let calls = board.calls.clone();
    (Gateway::new(board, clock.clone(), slots()), clock, calls)
}

fn request() -> Box<Request> {
    Box::new(mixes::request(&Mix::winter()).unwrap())
}

#[test]
fn a_release_is_at_the_slots_end_whatever_the_turn_took() {
    let times = [0, 1, 30, 500, SLOT - 1, SLOT, 7];
    let (mut gateway, clock, _) = made_up(&times, 0);
    for (number, time) in times.into_iter().enumerate() {
        let number = number as u64;
        let (release, moments) = gateway.run_slot();
        assert_eq!(release.slot, number);
        assert_eq!(moments.slot, number);
        assert_eq!(moments.began, number * PERIOD + GAP);
        assert_eq!(moments.ended, moments.began + time);
        assert_eq!(moments.boundary, (number + 1) * PERIOD);
        assert_eq!(moments.released, moments.boundary);
        assert_eq!(clock.now(), moments.released);
    }
}

#[test]
fn an_overrun_is_released_at_a_later_slots_end() {
    // one nanosecond too long; to the end of the next slot; one more; three periods and a half
    let times = [
        SLOT + 1,
        SLOT + PERIOD,
        SLOT + PERIOD + 1,
        3 * PERIOD + SLOT / 2,
        20,
    ];
    // taken in slot, released at the end of slot
    let expected = [(0, 1), (2, 3), (4, 6), (7, 10), (11, 11)];
    let (mut gateway, _, _) = made_up(&times, 0);
    for (taken, released) in expected {
        let (release, moments) = gateway.run_slot();
        assert_eq!((moments.slot, release.slot), (taken, released));
        assert_eq!(moments.began, taken * PERIOD + GAP);
        assert_eq!(moments.released, (released + 1) * PERIOD);
        assert!(moments.released >= moments.ended);
    }
}

#[test]
fn waiting_calls_are_served_in_gaps_only_and_in_order() {
    let (mut gateway, clock, calls) = made_up(&[SLOT + 1], 0);
    for queue in 0..4 {
        let request = request();
        gateway.wait(Waiting::Submit { queue, request });
        gateway.wait(Waiting::Look { queue });
    }
    // in the midst of what would be slot 0
    clock.pass(GAP + 300);
    let replies: Vec<Vec<Reply>> = (0..3).map(|_| gateway.run_slot().0.replies).collect();

    let submitted = |queue, number| Reply::Submitted(Ok(Ticket { queue, number }));
    let looked = Reply::Looked(Err(Refusal::NoRunningJob));
    let expected = [
        vec![submitted(0, 0), looked, submitted(1, 1), looked],
        vec![submitted(2, 2), looked, submitted(3, 3), looked],
        vec![],
    ];
    assert_eq!(replies, expected);

    let calls = calls.borrow();
    let names: Vec<&str> = calls.iter().map(|(_, name)| name.as_str()).collect();
    let expected = [
        "submit 0", "look 0", "submit 1", "look 1", "turn", "submit 2", "look 2", "submit 3",
        "look 3", "turn", "turn",
    ];
    assert_eq!(names, expected);
    for (moment, name) in calls.iter() {
        assert_eq!(
            slots().in_gap(*moment),
            name != "turn",
            "{name} at {moment}"
        );
    }
    // the first turn, in slot 1, overran and is released at the end of slot 2
    let moments: Vec<u64> = calls.iter().map(|(moment, _)| *moment).collect();
    assert_eq!(moments[0], PERIOD);
    assert_eq!(moments[5], 3 * PERIOD);
}

#[test]
fn a_wait_that_comes_back_late_releases_late_and_never_early() {
    // so late that the gap is over when the release has been made
    let (mut gateway, _, calls) = made_up(&[], GAP + 1);
    gateway.wait(Waiting::Look { queue: 0 });
    for _ in 0..3 {
        let (_, moments) = gateway.run_slot();
        assert_eq!(moments.released, moments.boundary + GAP + 1);
        assert!(moments.boundary >= moments.ended);
        assert_eq!(moments.boundary % PERIOD, 0);
        gateway.wait(Waiting::Look { queue: 1 });
    }
    assert_eq!(calls.borrow().len(), 6);
}

/// Document 01: a kind 4 job alone in queue 0, span 30, comes out with the 117th turn. The evaluations are the
/// oracle's.
#[test]
fn a_boards_record_comes_out_with_its_slot() {
    for (mix, evaluations) in [(Mix::winter(), 9), (Mix::catalogue(), 8)] {
        let request = Box::new(mixes::request(&mix).unwrap());
        let mut gateway = Gateway::new(Board::new(), MadeUpClock::default(), slots());
        gateway.wait(Waiting::Submit { queue: 0, request });
        for number in 0..240 {
            let (release, _) = gateway.run_slot();
            assert_eq!(release.slot, number);
            assert_eq!(release.turn, Ok(number == 116));
            let ticket = Ticket {
                queue: 0,
                number: 0,
            };
            match number {
                0 => assert_eq!(release.replies, [Reply::Submitted(Ok(ticket))]),
                _ => assert_eq!(release.replies, []),
            }
            // no record is handed out a second time
            let record = release
                .record()
                .map(|record| (record.ticket(), record.sealed()));
            assert_eq!(record.is_some(), number == 116);
            if let Some((out, sealed)) = record {
                assert_eq!(out, ticket);
                assert_eq!((sealed.status, sealed.evaluations), (0, evaluations));
            }
        }
    }
}

#[test]
fn refusals_are_released_like_answers() {
    let board = Board::from_bytes(vec![0; 100]);
    let mut gateway = Gateway::new(board, MadeUpClock::default(), slots());
    let request = request();
    gateway.wait(Waiting::Submit { queue: 0, request });
    gateway.wait(Waiting::Look { queue: 0 });
    let (release, moments) = gateway.run_slot();
    assert_eq!(release.turn, Err(Refusal::Board));
    let refused = [
        Reply::Submitted(Err(Refusal::Board)),
        Reply::Looked(Err(Refusal::Board)),
    ];
    assert_eq!(release.replies, refused);
    assert!(release.record().is_none());
    assert_eq!(moments.released, PERIOD);
}

#[test]
fn the_grid_of_slots() {
    let slots = slots();
    assert_eq!((slots.start(0), slots.end(0)), (200, 1200));
    assert_eq!((slots.start(3), slots.end(3)), (3800, 4800));
    let starts = [(0, 0), (200, 0), (201, 1), (1400, 1), (1401, 2)];
    assert!(starts
        .iter()
        .all(|&(moment, slot)| slots.next_start(moment) == slot));
    let ends = [(0, 0), (1, 0), (1200, 0), (1201, 1), (2400, 1), (2401, 2)];
    assert!(ends
        .iter()
        .all(|&(moment, slot)| slots.next_end(moment) == slot));
    let gaps = [
        (0, true),
        (199, true),
        (200, false),
        (1199, false),
        (1200, true),
    ];
    assert!(gaps
        .iter()
        .all(|&(moment, gap)| slots.in_gap(moment) == gap));
    // lengths out of range, and moments at the end of the clock
    assert_eq!(Slots::new(0, 1), None);
    assert_eq!(Slots::new(1, 0), None);
    assert_eq!(Slots::new(Slots::LONGEST + 1, 1), None);
    assert_eq!(Slots::new(1, u64::MAX), None);
    assert_eq!(slots.end(u64::MAX), u64::MAX);
    assert!(slots.next_end(u64::MAX) > 0 && slots.next_start(u64::MAX) > 0);
}

#[test]
fn the_busy_clock_never_comes_back_early() {
    let mut clock = BusyClock::new();
    for wait in [0, 1, 100, 4_999, 5_001, 50_000] {
        let moment = clock.now() + wait;
        clock.wait_until(moment);
        assert!(clock.now() >= moment);
    }
    let before = clock.now();
    clock.wait_until(0);
    assert!(clock.now() >= before);
}
