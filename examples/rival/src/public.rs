//! A list of calls on a fresh board and what the public sees of it, as `public_of` in
//! `crates/board_spec/specs/Run.antt` says: every answer but what a look shows, and of a record its first 16 bytes.
//! The place in the list is the moment.
use std::fmt;

use peng_robinson_board::{Board, Look, Record};

/// A call with its arguments; of a turn the length of its record buffer.
#[derive(Debug, Clone, PartialEq, Eq)]
pub enum Call {
    Submit {
        queue: u64,
        kind: u64,
        n: u64,
        block: Vec<u8>,
    },
    Turn {
        buffer: usize,
    },
    Look {
        queue: u64,
    },
    Quote {
        queue: u64,
        kind: u64,
    },
}

/// The public fields of a call: its arguments, of block and buffer the length alone.
#[derive(Debug, Clone, Copy, PartialEq, Eq)]
pub enum Fields {
    Submit {
        queue: u64,
        kind: u64,
        n: u64,
        block: usize,
    },
    Turn {
        buffer: usize,
    },
    Look {
        queue: u64,
    },
    Quote {
        queue: u64,
        kind: u64,
    },
}

/// What the public sees of one call.
#[derive(Debug, Clone, Copy, PartialEq, Eq)]
pub enum Public {
    /// refused by this number
    Refused(u64),
    /// a submit's ticket
    Ticket(u64),
    /// a turn without a record
    NoRecord,
    /// a turn with a record: its public bytes
    Record([u8; 16]),
    /// a look was answered; what it shows is the queue owner's
    Looked,
    /// the turns that a quote names
    Quoted(u64),
}

/// What belongs to the queue's owner, with its place in the list.
#[derive(Debug, Default)]
pub struct Owned {
    pub records: Vec<(usize, Record)>,
    pub looks: Vec<(usize, Look)>,
}

impl Call {
    pub fn fields(&self) -> Fields {
        match self {
            Call::Submit {
                queue,
                kind,
                n,
                block,
            } => Fields::Submit {
                queue: *queue,
                kind: *kind,
                n: *n,
                block: block.len(),
            },
            Call::Turn { buffer } => Fields::Turn { buffer: *buffer },
            Call::Look { queue } => Fields::Look { queue: *queue },
            Call::Quote { queue, kind } => Fields::Quote {
                queue: *queue,
                kind: *kind,
            },
        }
    }
}

impl fmt::Display for Fields {
    fn fmt(&self, f: &mut fmt::Formatter<'_>) -> fmt::Result {
        match self {
            Fields::Submit {
                queue,
                kind,
                n,
                block,
            } => {
                write!(f, "submit queue {queue} kind {kind} N {n} block {block}")
            }
            Fields::Turn { buffer } => write!(f, "turn buffer {buffer}"),
            Fields::Look { queue } => write!(f, "look queue {queue}"),
            Fields::Quote { queue, kind } => write!(f, "quote queue {queue} kind {kind}"),
        }
    }
}

impl fmt::Display for Public {
    fn fmt(&self, f: &mut fmt::Formatter<'_>) -> fmt::Result {
        match self {
            Public::Refused(number) => write!(f, "refused by {number}"),
            Public::Ticket(number) => write!(f, "ticket {number}"),
            Public::NoRecord => write!(f, "0"),
            Public::Record(bytes) => {
                write!(f, "1 ")?;
                bytes.iter().try_for_each(|byte| write!(f, "{byte:02x}"))
            }
            Public::Looked => write!(f, "answered"),
            Public::Quoted(turns) => write!(f, "quoted {turns}"),
        }
    }
}

/// Makes the calls on a fresh board.
pub fn run(calls: &[Call]) -> (Vec<Public>, Owned) {
    let mut board = Board::new();
    let mut owned = Owned::default();
    let mut view = Vec::with_capacity(calls.len());
    for (place, call) in calls.iter().enumerate() {
        view.push(match call {
            Call::Submit {
                queue,
                kind,
                n,
                block,
            } => match board.submit_block(*queue, *kind, *n, block) {
                Ok(ticket) => Public::Ticket(ticket.number),
                Err(refusal) => Public::Refused(refusal.number()),
            },
            Call::Turn { buffer } => {
                let mut bytes = vec![0; *buffer];
                let written = board
                    .turn_into(&mut bytes)
                    .and_then(|written| written.then(|| Record::from_bytes(&bytes)).transpose());
                match written {
                    Ok(None) => Public::NoRecord,
                    Ok(Some(record)) => {
                        let mut public = [0; 16];
                        public.copy_from_slice(record.public());
                        owned.records.push((place, record));
                        Public::Record(public)
                    }
                    Err(refusal) => Public::Refused(refusal.number()),
                }
            }
            Call::Look { queue } => match board.look(*queue) {
                Ok(look) => {
                    owned.looks.push((place, look));
                    Public::Looked
                }
                Err(refusal) => Public::Refused(refusal.number()),
            },
            Call::Quote { queue, kind } => match board.quote(*queue, *kind) {
                Ok(turns) => Public::Quoted(turns),
                Err(refusal) => Public::Refused(refusal.number()),
            },
        });
    }
    (view, owned)
}

impl Owned {
    /// How many records and looks of two runs of the same calls there are, and how many of them differ.
    pub fn differing(&self, other: &Owned) -> (usize, usize) {
        let records = self.records.iter().zip(&other.records);
        let sealed = |record: &Record| record.as_bytes()[16..].to_vec();
        let looks = self.looks.iter().zip(&other.looks);
        let bits = |look: &Look| (look.evaluations, look.density.to_bits());
        let differs: Vec<bool> = records
            .map(|((_, a), (_, b))| sealed(a) != sealed(b))
            .chain(looks.map(|((_, a), (_, b))| bits(a) != bits(b)))
            .collect();
        (differs.len(), differs.into_iter().filter(|&it| it).count())
    }
}

/// The first place where two lists differ; where one is the beginning of the other, that of the first that is left
/// over.
pub fn first_difference<T: PartialEq>(first: &[T], second: &[T]) -> Option<usize> {
    let shorter = first.len().min(second.len());
    let differs = first.iter().zip(second).position(|(a, b)| a != b);
    differs.or((first.len() != second.len()).then_some(shorter))
}

/// A line of a table of two views: the places from `first` to `last`, their call and what was seen.
#[derive(Debug, PartialEq, Eq)]
pub struct Line {
    pub first: usize,
    pub last: usize,
    pub fields: Fields,
    pub seen: [Public; 2],
}

/// Two views of one list of fields, with successive equal lines as one.
pub fn condensed(fields: &[Fields], first: &[Public], second: &[Public]) -> Vec<Line> {
    let mut lines: Vec<Line> = Vec::new();
    for (place, ((&fields, &a), &b)) in fields.iter().zip(first).zip(second).enumerate() {
        match lines.last_mut() {
            Some(line) if line.fields == fields && line.seen == [a, b] => line.last = place,
            _ => lines.push(Line {
                first: place,
                last: place,
                fields,
                seen: [a, b],
            }),
        }
    }
    lines
}
