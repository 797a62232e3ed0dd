//! The book that workers share and a worker's part with it, for the other programs here.
use crate::read::Row;
use crate::scan::{Benefits, Price, best_two, range};
use std::collections::VecDeque;

const MOST_KEPT: usize = 65_536;

/// Prices that only rise, with the raises since the version `first_kept`.
pub struct Log<P> {
    pub prices: Vec<P>,
    first_kept: u128,
    raises: VecDeque<(usize, P)>,
}

impl<P: Price> Log<P> {
    pub fn version(&self) -> u128 {
        self.first_kept + self.raises.len() as u128
    }

    fn raise(&mut self, object: usize, level: P) {
        if self.raises.len() == MOST_KEPT {
            self.trim(self.version());
        }
        self.raises.push_back((object, level));
        self.prices[object] = level;
    }

    fn trim(&mut self, version: u128) {
        self.raises.drain(..(version - self.first_kept) as usize);
        self.first_kept = version;
    }

    fn catch_up(&self, table: &mut [P], version: &mut u128) {
        if *version < self.first_kept {
            table.copy_from_slice(&self.prices);
        } else {
            let applied = (*version - self.first_kept) as usize;
            for (object, level) in self.raises.range(applied..) {
                table[*object] = *level;
            }
        }
        *version = self.version();
    }
}

/// What is asked of bids.
#[derive(Clone, Copy)]
pub struct Ask<P> {
    phase: u16,
    eps: i64,
    floor: P,
}

#[derive(Clone, Copy)]
pub struct Bid<P> {
    person: usize,
    object: usize,
    level: P,
    phase: u16,
}

/// The benefits of all persons.
pub struct Problem {
    pub rows: Vec<Benefits>,
    least: i64,
    spread: i64,
}

impl Problem {
    pub fn of(rows: &[Row]) -> Problem {
        let rows: Vec<Benefits> = rows.iter().map(|row| Benefits::of(row, rows.len())).collect();
        let (least, greatest) = range(&rows);
        Problem { rows, least, spread: greatest - least }
    }

    /// The bid of a person from a table, if some object is worth the floor.
    pub fn bid<P: Price>(&self, person: usize, ask: Ask<P>, table: &[P]) -> Option<Bid<P>> {
        let best = best_two(&self.rows[person], table)?;
        if best.value < ask.floor {
            return None;
        }
        let bar = best.second.map_or(ask.floor, |second| second.max(ask.floor));
        let level = best.value + table[best.object] - bar + P::from(ask.eps);
        Some(Bid { person, object: best.object, level, phase: ask.phase })
    }
}

pub struct Book<'a, P> {
    problem: &'a Problem,
    pub ask: Ask<P>,
    pub owners: Vec<Option<usize>>,
    queue: VecDeque<usize>,
    claims: Vec<Option<usize>>,
    pub counts: Vec<u128>,
    taken: Vec<u128>,
    pub log: Log<P>,
    owned: usize,
}

impl<'a, P: Price> Book<'a, P> {
    pub fn open(problem: &'a Problem, workers: usize) -> Book<'a, P> {
        let n = problem.rows.len();
        let mut book = Book {
            problem,
            ask: Ask { phase: 0, eps: 0, floor: P::from(0) },
            owners: Vec::new(),
            queue: VecDeque::new(),
            claims: vec![None; workers],
            counts: vec![0; workers],
            taken: vec![0; workers],
            log: Log { prices: vec![P::from(0); n], first_kept: 0, raises: VecDeque::new() },
            owned: 0,
        };
        book.begin((problem.spread / 5).max(1));
        book
    }

    fn begin(&mut self, eps: i64) {
        let n = self.problem.rows.len();
        let most = *self.log.prices.iter().max().unwrap();
        let step = P::from(self.problem.spread + eps);
        let floor = (1..n).fold(P::from(self.problem.least) - most, |floor, _| floor - step);
        self.ask = Ask { phase: self.ask.phase + 1, eps, floor };
        self.owners = vec![None; n];
        self.queue = (0..n).collect();
        self.owned = 0;
    }

    /// Whether everybody is assigned in the last phase.
    pub fn is_done(&self) -> bool {
        self.owned == self.problem.rows.len() && self.ask.eps == 1
    }

    /// Takes the bid of a worker's claim. Whether it was accepted.
    pub fn submit(&mut self, worker: usize, bid: Bid<P>) -> bool {
        if self.claims[worker] != Some(bid.person) {
            return false;
        }
        self.claims[worker] = None;
        let high = bid.level >= self.log.prices[bid.object] + P::from(self.ask.eps);
        if bid.phase != self.ask.phase || !high {
            self.queue.push_back(bid.person);
            return false;
        }
        self.log.raise(bid.object, bid.level);
        match self.owners[bid.object].replace(bid.person) {
            Some(evicted) => self.queue.push_back(evicted),
            None => self.owned += 1,
        }
        self.counts[worker] += 1;
        true
    }

    pub fn catch_up(&mut self, worker: usize, table: &mut [P], version: &mut u128) {
        self.log.catch_up(table, version);
        self.taken[worker] = *version;
        let least = *self.taken.iter().min().unwrap();
        if least >= self.log.first_kept {
            self.log.trim(least);
        }
    }

    pub fn next_if_over(&mut self) {
        if self.owned == self.problem.rows.len() && self.ask.eps > 1 {
            self.begin((self.ask.eps / 5).max(1));
        }
    }

    pub fn claim(&mut self, worker: usize) -> Option<usize> {
        let person = self.queue.pop_front()?;
        self.claims[worker] = Some(person);
        Some(person)
    }
}
