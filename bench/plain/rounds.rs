//! What the program's `solve` is compared with: the same reading and the same rounds in plain
//! Rust, with nothing proved. `plain_rounds read` stops after reading, `plain_rounds solve` goes on.
//! With the word `sparse` the problem is a sparse one, with `narrow` prices are computed in 64 bits
//! (which costs of 10^12 would overflow), with `counts` rounds and bids go to standard error, with
//! `start=REPORT` the first prices are those of a report.
mod answer;
mod read;
mod scan;

use answer::{print_assignment, print_refusal, reach};
use read::{Row, read_dense, read_sparse};
use scan::{Benefits, Price, best_two, range};
use std::io;
use std::thread;

/// Rounds on some rows: who owns each object, who waits, the prices, and what the phase asks.
struct Auction<P> {
    rows: Vec<Benefits>,
    prices: Vec<P>,
    owners: Vec<Option<usize>>,
    queue: Vec<usize>,
    eps: i64,
    floor: P,
    rounds: u64,
    bids: u64,
    accepted: u64,
}

/// An object and a level, if some object is worth the floor.
type Offer<P> = Option<(usize, P)>;

const LEAST_PAIRS: usize = 1 << 21;

impl<P: Price> Auction<P> {
    fn offer(&self, person: usize) -> Offer<P> {
        let best = best_two(&self.rows[person], &self.prices)?;
        if best.value < self.floor {
            return None;
        }
        let bar = best.second.map_or(self.floor, |second| second.max(self.floor));
        Some((best.object, best.value + self.prices[best.object] - bar + P::from(self.eps)))
    }

    /// The offers of some persons, by one thread or by as many as there are processors.
    fn offers(&self, persons: &[usize], offers: &mut Vec<Offer<P>>) {
        offers.clear();
        offers.resize(persons.len(), None);
        let pairs: usize = persons.iter().map(|person| self.rows[*person].len()).sum();
        let cores = || thread::available_parallelism().map_or(1, |cores| cores.get());
        let pieces = if pairs / 4 < LEAST_PAIRS { 1 } else { (pairs / LEAST_PAIRS).min(cores()) };
        if pieces < 2 {
            for (offer, person) in offers.iter_mut().zip(persons) {
                *offer = self.offer(*person);
            }
            return;
        }
        let piece = persons.len().div_ceil(pieces);
        thread::scope(|scope| {
            for (offers, persons) in offers.chunks_mut(piece).zip(persons.chunks(piece)) {
                scope.spawn(move || {
                    for (offer, person) in offers.iter_mut().zip(persons) {
                        *offer = self.offer(*person);
                    }
                });
            }
        });
    }

    fn submit(&mut self, person: usize, object: usize, level: P) {
        if level < self.prices[object] + P::from(self.eps) {
            self.queue.push(person);
            return;
        }
        self.accepted += 1;
        self.prices[object] = level;
        if let Some(evicted) = self.owners[object].replace(person) {
            self.queue.push(evicted);
        }
    }

    /// Rounds of one phase. A person that finds nothing worth the floor ends the run.
    fn phase(&mut self) -> Option<usize> {
        let (mut persons, mut offers) = (Vec::new(), Vec::new());
        while !self.queue.is_empty() {
            std::mem::swap(&mut persons, &mut self.queue);
            self.queue.clear();
            self.offers(&persons, &mut offers);
            self.rounds += 1;
            self.bids += persons.len() as u64;
            for (person, offer) in persons.iter().zip(&offers) {
                match offer {
                    Some((object, level)) => self.submit(*person, *object, *level),
                    None => return Some(*person),
                }
            }
        }
        None
    }

    /// All phases. A person that finds nothing worth the floor ends the run.
    fn run(&mut self) -> Option<usize> {
        let n = self.rows.len();
        let (least, greatest) = range(&self.rows);
        self.eps = ((greatest - least) / 5).max(1);
        loop {
            let most = *self.prices.iter().max().unwrap();
            let step = P::from(greatest - least + self.eps);
            self.floor = (1..n).fold(P::from(least) - most, |floor, _| floor - step);
            self.owners = vec![None; n];
            self.queue = (0..n).collect();
            if let Some(person) = self.phase() {
                return Some(person);
            }
            if self.eps == 1 {
                return None;
            }
            self.eps = (self.eps / 5).max(1);
        }
    }
}

/// The prices of a report.
fn prices_of(report: &str) -> Vec<i64> {
    let text = std::fs::read_to_string(report).unwrap();
    let prices = text.lines().filter(|line| line.starts_with("price "));
    prices.map(|line| line.rsplit(' ').next().unwrap().parse().unwrap()).collect()
}

/// Solves and prints; whether there is an assignment.
fn solve<P: Price>(rows: &[Row], start: Option<Vec<i64>>, counts: bool) -> io::Result<bool> {
    let n = rows.len();
    let mut auction = Auction::<P> {
        rows: rows.iter().map(|row| Benefits::of(row, n)).collect(),
        prices: start.unwrap_or(vec![0; n]).into_iter().map(P::from).collect(),
        owners: Vec::new(),
        queue: Vec::new(),
        eps: 1,
        floor: P::from(0),
        rounds: 0,
        bids: 0,
        accepted: 0,
    };
    let halted = auction.run();
    if counts {
        eprintln!("{} {} {}", auction.rounds, auction.bids, auction.accepted);
    }
    if let Some(person) = halted {
        let (persons, objects) = reach(rows, &auction.owners, person);
        print_refusal(&persons, &objects)?;
    } else {
        print_assignment(rows, &auction.owners)?;
    }
    Ok(halted.is_none())
}

fn main() -> io::Result<()> {
    let words: Vec<String> = std::env::args().skip(1).collect();
    let has = |word: &str| words.iter().any(|w| w == word);
    let mut reader = io::stdin().lock();
    let read = if has("sparse") { read_sparse(&mut reader) } else { read_dense(&mut reader) };
    let rows = match read {
        Ok(rows) => rows,
        Err(fault) => {
            eprintln!("{fault}");
            std::process::exit(3);
        }
    };
    if has("read") {
        println!("{}", rows.len());
        return Ok(());
    }
    let start = words.iter().find_map(|word| word.strip_prefix("start=")).map(prices_of);
    let solved = if has("narrow") {
        solve::<i64>(&rows, start, has("counts"))?
    } else {
        solve::<i128>(&rows, start, has("counts"))?
    };
    if !solved {
        std::process::exit(1);
    }
    Ok(())
}
