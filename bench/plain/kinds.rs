//! Writes problems of one kind, for measurements: kinds KIND N. Numbers are drawn from a fixed seed.
use std::env;
use std::fmt::Write as _;
use std::io::{self, BufWriter, Write};

/// The numbers of a congruential generator, by their high bits.
struct Drawn(u64);

impl Drawn {
    fn below(&mut self, most: u64) -> u64 {
        self.0 = self.0.wrapping_mul(6364136223846793005).wrapping_add(1442695040888963407);
        (self.0 >> 33) % most
    }

    fn cost(&mut self, most: u64) -> i64 {
        1 + self.below(most) as i64
    }
}

const DEAR: i64 = 1_000_000;

/// The costs of a row of a dense problem; `level` and `levels` are drawn once, of rows and of columns.
fn row(kind: &str, n: usize, i: usize, level: i64, levels: &[i64], drawn: &mut Drawn) -> Option<Vec<i64>> {
    let columns = 0..n;
    let row = match kind {
        "to_10" => columns.map(|_| drawn.cost(10)).collect(),
        "to_1000" => columns.map(|_| drawn.cost(1000)).collect(),
        "to_million" => columns.map(|_| drawn.cost(1_000_000)).collect(),
        "equal_rows" => columns.map(|j| 1 + (j * 7919 % 1000) as i64).collect(),
        "all_equal" => vec![7; n],
        "like_rows" => columns.map(|j| level + levels[j] + drawn.cost(50)).collect(),
        "products" => columns.map(|j| ((i + 1) * (j + 1)) as i64).collect(),
        "dear_column" => columns.map(|j| if j == 0 { DEAR } else { 1 }).collect(),
        "two_costs" => marked(n, 3, 1000, drawn, |_| 1),
        "dear_marks" => marked(n, 20, DEAR, drawn, |drawn| drawn.cost(1000)),
        "dummy_rows" => columns.map(|_| if i < 100 { 0 } else { drawn.cost(1000) }).collect(),
        "dummy_columns" => columns.map(|j| if j < 100 { 0 } else { drawn.cost(1000) }).collect(),
        "few_rows" => columns.map(|_| if i >= n / 10 { 0 } else { drawn.cost(1000) }).collect(),
        _ => return None,
    };
    Some(row)
}

/// A row with so many costs of its own at drawn places, and else this one.
fn marked(n: usize, own: usize, other: i64, drawn: &mut Drawn, mut cost: impl FnMut(&mut Drawn) -> i64) -> Vec<i64> {
    let mut row = vec![other; n];
    for _ in 0..own {
        let place = drawn.below(n as u64) as usize;
        row[place] = cost(drawn);
    }
    row
}

fn write_dense(out: &mut impl Write, kind: &str, n: usize) -> io::Result<()> {
    let mut drawn = Drawn(7);
    let levels: Vec<i64> = (0..2 * n).map(|_| drawn.cost(400_000)).collect();
    writeln!(out, "{n}")?;
    let mut text = String::new();
    for i in 0..n {
        let costs = row(kind, n, i, levels[n + i], &levels, &mut drawn).ok_or(io::ErrorKind::InvalidInput)?;
        text.clear();
        for cost in costs {
            let _ = write!(text, "{cost} ");
        }
        writeln!(out, "{}", text.trim_end())?;
    }
    Ok(())
}

/// So many objects a person, one of them its own of a planted assignment.
fn write_planted(out: &mut impl Write, n: usize, pairs: usize) -> io::Result<()> {
    let mut drawn = Drawn(5);
    let mut planted: Vec<usize> = (1..=n).collect();
    for last in (1..n).rev() {
        planted.swap(last, drawn.below(last as u64 + 1) as usize);
    }
    writeln!(out, "{n}")?;
    for i in 0..n {
        for k in 0..pairs {
            let object = if k == 0 { planted[i] } else { 1 + drawn.below(n as u64) as usize };
            writeln!(out, "{} {object} {}", i + 1, drawn.cost(1000))?;
        }
    }
    Ok(())
}

/// The first persons list one object less than they are, each other one its own.
fn write_contested(out: &mut impl Write, n: usize, persons: usize) -> io::Result<()> {
    writeln!(out, "{n}")?;
    for i in 1..=n {
        let objects = if i <= persons { 1..persons } else { i..i + 1 };
        for j in objects {
            writeln!(out, "{i} {j} {}", 1 + (i * 7919 + j * 104_729) % 1000)?;
        }
    }
    Ok(())
}

fn main() -> io::Result<()> {
    let words: Vec<String> = env::args().collect();
    let (kind, n) = (words[1].as_str(), words[2].parse().map_err(|_| io::ErrorKind::InvalidInput)?);
    let mut out = BufWriter::new(io::stdout().lock());
    match kind.split_once('=') {
        Some(("pairs", pairs)) => write_planted(&mut out, n, pairs.parse().unwrap_or(1)),
        Some(("contested", persons)) => write_contested(&mut out, n, persons.parse().unwrap_or(n)),
        _ => write_dense(&mut out, kind, n),
    }
}
