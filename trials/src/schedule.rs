//! Document 01's schedule of a run, from the calls' arguments alone: "It keeps the turn, at first 0, and per queue the count of
//! accepted jobs and, in order, the jobs held". 6 never comes.

use std::collections::VecDeque;

#[derive(Clone, Debug)]
pub struct Job<T> {
    pub kind: u64,
    pub ticket: u64,
    pub turns: u64,
    /// whatever the caller wants to know again at the release
    pub label: T,
}

struct Queue<T> {
    count: u64,
    jobs: VecDeque<Job<T>>,
}

pub struct Schedule<T> {
    turn: usize,
    queues: [Queue<T>; 4],
}

fn span(kind: u64) -> u64 {
    [3101, 6204, 30, 30, 150, 250, 150, 200, 200][kind as usize - 1]
}

impl<T> Schedule<T> {
    pub fn new() -> Self {
        let queue = |_| Queue {
            count: 0,
            jobs: VecDeque::new(),
        };
        Schedule {
            turn: 0,
            queues: [0, 1, 2, 3].map(queue),
        }
    }

    pub fn held(&self, queue: usize) -> usize {
        self.queues[queue].jobs.len()
    }

    /// The ticket, or the refusal's number.
    pub fn submit(
        &mut self,
        queue: u64,
        kind: u64,
        n: u64,
        size: usize,
        label: T,
    ) -> Result<u64, u64> {
        if queue > 3 {
            return Err(1);
        }
        if kind < 1 || kind > 9 {
            return Err(2);
        }
        if n < 1 || n > 8 || (kind >= 7 && n != 2) {
            return Err(3);
        }
        if size != 640 {
            return Err(8);
        }
        let queue = &mut self.queues[queue as usize];
        if queue.jobs.len() == 8 {
            return Err(4);
        }
        let ticket = queue.count;
        queue.count = queue.count.wrapping_add(1);
        queue.jobs.push_back(Job {
            kind,
            ticket,
            turns: 0,
            label,
        });
        Ok(ticket)
    }

    /// The queue served and the job handed out, if any, or the refusal's number.
    pub fn turn(&mut self, size: usize) -> Result<(usize, Option<Job<T>>), u64> {
        if size < 64 {
            return Err(5);
        }
        let served = self.turn;
        self.turn = (served + 1) % 4;
        let jobs = &mut self.queues[served].jobs;
        let Some(first) = jobs.front_mut() else {
            return Ok((served, None));
        };
        first.turns += 1;
        let ended = first.turns == span(first.kind);
        Ok((served, if ended { jobs.pop_front() } else { None }))
    }

    /// The jobs held and the turn, as they are now.
    fn unlabelled(&self) -> Schedule<()> {
        let job = |job: &Job<T>| Job {
            kind: job.kind,
            ticket: job.ticket,
            turns: job.turns,
            label: (),
        };
        Schedule {
            turn: self.turn,
            queues: self.queues.each_ref().map(|queue| Queue {
                count: queue.count,
                jobs: queue.jobs.iter().map(job).collect(),
            }),
        }
    }

    /// The accepted turns until a job submitted now is handed out, that turn counted, or the refusal's number: a submit to a copy
    /// and then turns. N and block, which a quote has not, are ones that no kind refuses.
    pub fn quote(&self, queue: u64, kind: u64) -> Result<u64, u64> {
        let mut copy = self.unlabelled();
        let ticket = copy.submit(queue, kind, 2, 640, ())?;
        let mut turns = 0;
        loop {
            turns += 1;
            if let (served, Some(job)) = copy.turn(64)? {
                if (served as u64, job.ticket) == (queue, ticket) {
                    return Ok(turns);
                }
            }
        }
    }

    /// Nothing where the look is answered, else the refusal's number.
    pub fn look(&self, queue: u64) -> Result<(), u64> {
        if queue > 3 {
            return Err(1);
        }
        match self.queues[queue as usize].jobs.front() {
            Some(first) if first.turns > 0 => Ok(()),
            _ => Err(7),
        }
    }
}
