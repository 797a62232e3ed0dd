//! What the core over lists of events is compared with: the same events over the same book in
//! plain Rust, with nothing proved. `plain_events WORKERS COUNT EVERY` reads a sparse problem.
#[allow(dead_code)]
mod book;
#[allow(dead_code)]
mod read;
#[allow(dead_code)]
mod scan;

use book::{Bid, Book, Problem};
use read::read_sparse;
use std::time::Instant;

/// What a worker has.
struct Seat {
    table: Vec<i128>,
    version: u128,
    bid: Option<Bid<i128>>,
    accepted: u128,
}

/// A person below the floor isn't met with in what is measured.
fn happen(problem: &Problem, book: &mut Book<i128>, seats: &mut [Seat], worker: usize, catch_up: bool) {
    let seat = &mut seats[worker];
    if let Some(bid) = seat.bid.take() {
        book.submit(worker, bid);
    }
    seat.accepted = book.counts[worker];
    if catch_up {
        book.catch_up(worker, &mut seat.table, &mut seat.version);
    }
    book.next_if_over();
    if let Some(person) = book.claim(worker) {
        seat.bid = Some(problem.bid(person, book.ask, &seat.table).unwrap());
    }
}

fn main() {
    let numbers: Vec<usize> = std::env::args().skip(1).map(|word| word.parse().unwrap()).collect();
    let (workers, count, every) = (numbers[0], numbers[1], numbers[2]);
    let rows = read_sparse(&mut std::io::stdin().lock()).unwrap();
    let events: Vec<(u16, bool)> = (0..count)
        .map(|i| ((i % workers) as u16, i % every == every - 1))
        .collect();
    let start = Instant::now();
    let problem = Problem::of(&rows);
    let mut book = Book::open(&problem, workers);
    let seat = |_| Seat { table: vec![0; rows.len()], version: 0, bid: None, accepted: 0 };
    let mut seats: Vec<Seat> = (0..workers).map(seat).collect();
    for (worker, catch_up) in &events {
        happen(&problem, &mut book, &mut seats, *worker as usize, *catch_up);
    }
    let time = start.elapsed().as_nanos();
    let sum: i128 = book.log.prices.iter().sum();
    println!("{time} {} {sum}", book.log.version());
}
