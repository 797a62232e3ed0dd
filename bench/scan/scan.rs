//! The same scans in plain Rust, of the rows of a sparse problem on standard input: as one would
//! write them first, with 128-bit sums throughout; and of full rows by blocks of sixteen objects,
//! with each price in 64 bits next to it, as the proved scan does.
use std::hint::black_box;
use std::io::Read;
use std::time::Instant;

const BENEFITS: u64 = 400_000_000;
const BATCH: u64 = 400_000;
const NARROW_END: i128 = 1 << 62;
const LANES: usize = 16;

#[inline(never)]
fn best_two_full(benefits: &[i64], prices: &[i128]) -> (usize, i128, i128) {
    let (mut object, mut best, mut second) = (0, i128::MIN, i128::MIN);
    for (i, (benefit, price)) in benefits.iter().zip(prices).enumerate() {
        let value = i128::from(*benefit) - price;
        if value > best {
            (second, best, object) = (best, value, i + 1);
        } else if value > second {
            second = value;
        }
    }
    (object, best, second)
}

#[inline(never)]
fn best_two_in_blocks(benefits: &[i64], prices: &[i128], narrow: &[i64]) -> (usize, i128, i128) {
    let (mut object, mut best, mut second) = (0, i128::MIN, i128::MIN);
    let mut limit = i64::MIN;
    let mut from = 0;
    while from < benefits.len() {
        let to = benefits.len().min(from + LANES);
        let mut above = false;
        for (benefit, price) in benefits[from..to].iter().zip(&narrow[from..to]) {
            above |= benefit - price > limit;
        }
        if above {
            for i in from..to {
                let value = i128::from(benefits[i]) - prices[i];
                if value > best {
                    (second, best, object) = (best, value, i + 1);
                } else if value > second {
                    second = value;
                }
            }
            limit = i64::try_from(second).unwrap_or(i64::MIN);
        }
        from = to;
    }
    (object, best, second)
}

#[inline(never)]
fn best_two(row: &[(u16, i64)], prices: &[i128]) -> (usize, i128, i128) {
    let (mut object, mut best, mut second) = (0, i128::MIN, i128::MIN);
    for (j, benefit) in row {
        let value = i128::from(*benefit) - prices[*j as usize - 1];
        if value > best {
            (second, best, object) = (best, value, *j as usize);
        } else if value > second {
            second = value;
        }
    }
    (object, best, second)
}

// Scans all rows in turn, in batches, until so many benefits were read, and says how long one took in
// the fastest batch.
fn measure<T>(name: &str, rows: &[Vec<T>], scan: impl Fn(&[T]) -> (usize, i128, i128)) {
    let once: u64 = rows.iter().map(|row| row.len() as u64).sum();
    let turns = (BATCH / once.max(1)).max(1);
    let batches = if once == 0 { 0 } else { BENEFITS / once / turns };
    let (mut least, mut sum) = (u128::MAX, 0);
    for _ in 0..batches {
        let start = Instant::now();
        for _ in 0..turns {
            sum += rows.iter().map(|row| scan(black_box(row)).0).sum::<usize>();
        }
        least = least.min(start.elapsed().as_nanos() / (u128::from(turns) * rows.len() as u128));
    }
    println!("{name}: {} ns a row, sum {sum}", if batches == 0 { 0 } else { least });
}

fn main() {
    let mut text = String::new();
    std::io::stdin().read_to_string(&mut text).unwrap();
    let mut numbers = text.split_ascii_whitespace().map(|word| word.parse::<i64>().unwrap());
    let n = numbers.next().unwrap();
    let mut pairs: Vec<Vec<(u16, i64)>> = vec![Vec::new(); n as usize];
    while let Some(person) = numbers.next() {
        let (object, cost) = (numbers.next().unwrap(), numbers.next().unwrap());
        pairs[person as usize - 1].push((object as u16, -(n + 1) * cost));
    }
    let is_full = |row: &Vec<(u16, i64)>| row.len() == n as usize;
    let full: Vec<Vec<i64>> = pairs
        .iter()
        .filter(|row| is_full(row))
        .map(|row| row.iter().map(|pair| pair.1).collect())
        .collect();
    let listed: Vec<Vec<(u16, i64)>> =
        pairs.iter().filter(|row| !row.is_empty() && !is_full(row)).cloned().collect();
    let prices = vec![0i128; n as usize];
    let narrow: Vec<i64> = prices.iter().map(|price| (*price).min(NARROW_END) as i64).collect();
    measure("full, 128 bits", &full, |row| best_two_full(row, black_box(&prices)));
    measure("full, blocks", &full, |row| {
        best_two_in_blocks(row, black_box(&prices), black_box(&narrow))
    });
    measure("pairs", &listed, |row| best_two(row, black_box(&prices)));
}
