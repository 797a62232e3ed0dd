//! What the library's shortest paths are compared with: Jonker and Volgenant's method in plain Rust, with nothing
//! proved and no check of what is found. As a program it reads a problem (a sparse one with the word `sparse`), solves
//! it as often as the word `times=N` says, prints the cost, or that there is none, and the nanoseconds of the
//! fastest solve on standard error. As a library it has two calls for C.
mod lapjv;
mod read;

use lapjv::{Dense, Sparse, solve_dense, solve_sparse};
use read::{Row, read_dense, read_sparse};
use std::time::Instant;
use std::{env, io};

/// The fastest of so many solves, in nanoseconds, and what it found.
fn timed<T>(times: usize, mut solve: impl FnMut() -> T) -> (u128, T) {
    let mut least = (u128::MAX, None);
    for _ in 0..times.max(1) {
        let start = Instant::now();
        let found = solve();
        let took = start.elapsed().as_nanos();
        if took < least.0 {
            least = (took, Some(found));
        }
    }
    (least.0, least.1.unwrap())
}

fn cost_of(rows: &[Row], columns: &[usize]) -> i64 {
    let listed = |(row, column): (&Row, &usize)| {
        let at = row.binary_search_by_key(&(*column as u16 + 1), |pair| pair.0).unwrap();
        row[at].1
    };
    rows.iter().zip(columns).map(listed).sum()
}

pub fn main() -> Result<(), String> {
    let words: Vec<String> = env::args().skip(1).collect();
    let times = words.iter().find_map(|word| word.strip_prefix("times=")?.parse().ok()).unwrap_or(1);
    let sparse = words.iter().any(|word| word == "sparse");
    let mut input = io::stdin().lock();
    let rows = if sparse { read_sparse(&mut input)? } else { read_dense(&mut input)? };
    let (nanoseconds, found) = if sparse {
        timed(times, || solve_sparse(&Sparse { rows: &rows }))
    } else {
        let costs: Vec<i64> = rows.iter().flatten().map(|pair| pair.1).collect();
        let problem = Dense { n: rows.len(), costs: &costs };
        timed(times, || Some(solve_dense(&problem)))
    };
    match found {
        Some(columns) => println!("cost {}", cost_of(&rows, &columns)),
        None => println!("infeasible"),
    }
    eprintln!("{nanoseconds}");
    Ok(())
}

fn answered(found: Option<Vec<usize>>, room: &mut [u32], cost: impl Fn(usize, usize) -> i64) -> i64 {
    let Some(found) = found else {
        return i64::MIN;
    };
    for (place, column) in room.iter_mut().zip(&found) {
        *place = *column as u32 + 1;
    }
    found.iter().enumerate().map(|(row, column)| cost(row, *column)).sum()
}

/// Writes the columns of the rows, from 1, and answers the sum of the costs.
///
/// # Safety
/// There are `n * n` costs, and room for `n` columns.
#[unsafe(no_mangle)]
pub unsafe extern "C" fn plain_dense(n: usize, costs: *const i64, columns: *mut u32) -> i64 {
    let costs = unsafe { std::slice::from_raw_parts(costs, n * n) };
    let room = unsafe { std::slice::from_raw_parts_mut(columns, n) };
    answered(Some(solve_dense(&Dense { n, costs })), room, |row, column| costs[row * n + column])
}

/// The same of so many pairs, the rows' in order, and of each row in the order of the columns; the least number where
/// there is no assignment.
///
/// # Safety
/// Each of the three lists has `pairs` numbers, rows and columns are from 1 to `n`, and there is room for `n` columns.
#[unsafe(no_mangle)]
pub unsafe extern "C" fn plain_sparse(
    n: usize,
    pairs: usize,
    of_rows: *const u32,
    of_columns: *const u32,
    costs: *const i64,
    columns: *mut u32,
) -> i64 {
    let (of_rows, of_columns, costs) = unsafe {
        let numbers = |list| std::slice::from_raw_parts(list, pairs);
        (numbers(of_rows), numbers(of_columns), std::slice::from_raw_parts(costs, pairs))
    };
    let room = unsafe { std::slice::from_raw_parts_mut(columns, n) };
    let mut rows: Vec<Row> = vec![Vec::new(); n];
    for k in 0..pairs {
        rows[of_rows[k] as usize - 1].push((of_columns[k] as u16, costs[k]));
    }
    let cost = |row: usize, column: usize| {
        let listed: &Row = &rows[row];
        listed[listed.binary_search_by_key(&(column as u16 + 1), |pair| pair.0).unwrap()].1
    };
    answered(solve_sparse(&Sparse { rows: &rows }), room, cost)
}
