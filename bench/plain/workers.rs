//! What `solve --mode workers` is compared with: the same reading, and threads that bid from tables of their own
//! into one book under a lock, in plain Rust, with nothing proved. `plain_workers WORKERS REFRESH`; with the word
//! `sparse` the problem is a sparse one, with `narrow` prices are computed in 64 bits, with `counts` it prints
//! sessions, sessions that found the lock taken, refused bids, accepted bids and idle sessions on standard error.
mod answer;
mod book;
mod read;
mod scan;

use answer::{print_assignment, print_refusal, reach};
use book::{Ask, Bid, Book, Problem};
use read::{Row, read_dense, read_sparse};
use scan::Price;
use std::io;
use std::sync::{Mutex, MutexGuard, TryLockError};
use std::thread;
use std::time::Duration;

/// The persons and the objects of a refusal.
type Refusal = (Vec<usize>, Vec<usize>);

struct Shared<'a, P> {
    book: Book<'a, P>,
    refuted: Option<Refusal>,
    counts: Counts,
}

#[derive(Clone, Copy, Default)]
struct Counts {
    sessions: u64,
    misses: u64,
    refused: u64,
    accepted: u64,
    idle: u64,
}

enum Offer<P> {
    Bid(Bid<P>),
    Below(usize),
}

/// What a worker has.
struct Seat<P> {
    number: usize,
    table: Vec<P>,
    version: u128,
    offer: Option<Offer<P>>,
    since: u64,
    counts: Counts,
}

enum Claim<P> {
    Person(usize, Ask<P>),
    Wait,
    End,
}

/// The offer goes in; whether it was a bid that was refused.
fn hand_in<P: Price>(shared: &mut Shared<P>, rows: &[Row], seat: &mut Seat<P>) -> bool {
    match seat.offer.take() {
        None => false,
        Some(Offer::Bid(bid)) => {
            let accepted = shared.book.submit(seat.number, bid);
            seat.counts.accepted += u64::from(accepted);
            seat.counts.refused += u64::from(!accepted);
            !accepted
        }
        Some(Offer::Below(person)) => {
            shared.refuted = Some(reach(rows, &shared.book.owners, person));
            false
        }
    }
}

fn session<P: Price>(shared: &mut Shared<P>, rows: &[Row], seat: &mut Seat<P>, refresh: u64) -> Claim<P> {
    let refused = hand_in(shared, rows, seat);
    seat.counts.sessions += 1;
    seat.since += 1;
    if refused || (0 < refresh && refresh <= seat.since) {
        shared.book.catch_up(seat.number, &mut seat.table, &mut seat.version);
        seat.since = 0;
    }
    shared.book.next_if_over();
    if shared.refuted.is_some() || shared.book.is_done() {
        return Claim::End;
    }
    match shared.book.claim(seat.number) {
        Some(person) => Claim::Person(person, shared.book.ask),
        None => Claim::Wait,
    }
}

fn take<'a, T>(shared: &'a Mutex<T>, misses: &mut u64) -> MutexGuard<'a, T> {
    match shared.try_lock() {
        Ok(taken) => taken,
        Err(TryLockError::WouldBlock) => {
            *misses += 1;
            shared.lock().unwrap()
        }
        Err(TryLockError::Poisoned(_)) => panic!(),
    }
}

fn work<P: Price>(problem: &Problem, rows: &[Row], shared: &Mutex<Shared<P>>, seat: &mut Seat<P>, refresh: u64) {
    let mut idle = 0;
    loop {
        let mut taken = take(shared, &mut seat.counts.misses);
        let claim = session(&mut taken, rows, seat, refresh);
        drop(taken);
        match claim {
            Claim::Person(person, ask) => {
                idle = 0;
                let bid = problem.bid(person, ask, &seat.table);
                seat.offer = Some(bid.map_or(Offer::Below(person), Offer::Bid));
            }
            Claim::Wait => {
                seat.counts.idle += 1;
                if idle < 4 { thread::yield_now() } else { thread::park_timeout(Duration::from_micros(50)) }
                idle += 1;
            }
            Claim::End => return,
        }
    }
}

/// Adds what a worker counted.
fn add(counts: &mut Counts, seat: Counts) {
    counts.sessions += seat.sessions;
    counts.misses += seat.misses;
    counts.refused += seat.refused;
    counts.accepted += seat.accepted;
    counts.idle += seat.idle;
}

/// Solves and prints; whether there is an assignment.
fn solve<P: Price>(rows: &[Row], workers: usize, refresh: u64, counts: bool) -> io::Result<bool> {
    let problem = Problem::of(rows);
    let book = Book::<P>::open(&problem, workers);
    let shared = Mutex::new(Shared { book, refuted: None, counts: Counts::default() });
    thread::scope(|scope| {
        for number in 0..workers {
            let (problem, shared) = (&problem, &shared);
            scope.spawn(move || {
                let table = vec![P::from(0); rows.len()];
                let mut seat = Seat { number, table, version: 0, offer: None, since: 0, counts: Counts::default() };
                work(problem, rows, shared, &mut seat, refresh);
                add(&mut shared.lock().unwrap().counts, seat.counts);
            });
        }
    });
    let shared = shared.into_inner().unwrap();
    if counts {
        let Counts { sessions, misses, refused, accepted, idle } = shared.counts;
        eprintln!("{sessions} {misses} {refused} {accepted} {idle}");
    }
    match &shared.refuted {
        Some((persons, objects)) => print_refusal(persons, objects)?,
        None => print_assignment(rows, &shared.book.owners)?,
    }
    Ok(shared.refuted.is_none())
}

fn main() -> io::Result<()> {
    let words: Vec<String> = std::env::args().skip(1).collect();
    let has = |word: &str| words.iter().any(|w| w == word);
    let (workers, refresh) = (words[0].parse().unwrap(), words[1].parse().unwrap());
    let mut reader = io::stdin().lock();
    let rows = if has("sparse") { read_sparse(&mut reader) } else { read_dense(&mut reader) }.unwrap();
    let solved = if has("narrow") {
        solve::<i64>(&rows, workers, refresh, has("counts"))?
    } else {
        solve::<i128>(&rows, workers, refresh, has("counts"))?
    };
    if !solved {
        std::process::exit(1);
    }
    Ok(())
}
