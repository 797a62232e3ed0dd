//! What writing and reading of reports is compared with, in plain Rust: `plain_report TURNS` writes
//! and reads a report of version 2 on 8192 persons, with prices of eight digits, so many times.
use std::io::Write;
use std::time::Instant;

/// A best assignment: its cost, object and cost of each person, and prices.
#[derive(PartialEq, Debug)]
struct Report {
    cost: i64,
    rows: Vec<(u16, i64)>,
    prices: Vec<i128>,
}

fn write(out: &mut impl Write, report: &Report) -> std::io::Result<()> {
    writeln!(out, "sense min")?;
    writeln!(out, "cost {}", report.cost)?;
    for (i, (object, cost)) in report.rows.iter().enumerate() {
        writeln!(out, "assign {} {object} {cost}", i + 1)?;
    }
    for (j, price) in report.prices.iter().enumerate() {
        writeln!(out, "price {} {price}", j + 1)?;
    }
    Ok(())
}

fn read(text: &str) -> Option<Report> {
    let mut lines = text.lines();
    if lines.next()? != "sense min" {
        return None;
    }
    let cost = lines.next()?.strip_prefix("cost ")?.parse().ok()?;
    let mut report = Report { cost, rows: Vec::new(), prices: Vec::new() };
    for line in lines {
        let mut words = line.split(' ');
        match words.next()? {
            "assign" if report.prices.is_empty() => {
                if words.next()?.parse() != Ok(report.rows.len() + 1) {
                    return None;
                }
                report.rows.push((words.next()?.parse().ok()?, words.next()?.parse().ok()?));
            }
            "price" => {
                if words.next()?.parse() != Ok(report.prices.len() + 1) {
                    return None;
                }
                report.prices.push(words.next()?.parse().ok()?);
            }
            _ => return None,
        }
        if words.next().is_some() {
            return None;
        }
    }
    Some(report)
}

fn main() {
    let turns: usize = std::env::args().nth(1).unwrap().parse().unwrap();
    let rows: Vec<(u16, i64)> = (1..=8192).map(|i| (8193 - i, i64::from(i) * 7919 % 1000 + 1)).collect();
    let cost = rows.iter().map(|row| row.1).sum();
    let prices = (1..=8192).map(|j| 10_000_000 + j * 104_729 % 80_000_000).collect();
    let report = Report { cost, rows, prices };
    let mut bytes = 0;
    let (mut writing, mut reading) = (u128::MAX, u128::MAX);
    for _ in 0..turns {
        let mut out = Vec::with_capacity(1 << 20);
        let start = Instant::now();
        write(&mut out, &report).unwrap();
        writing = writing.min(start.elapsed().as_nanos());
        bytes = out.len();
        let start = Instant::now();
        let again = read(std::str::from_utf8(&out).unwrap());
        reading = reading.min(start.elapsed().as_nanos());
        assert!(again.as_ref() == Some(&report));
    }
    println!("{writing} {reading} {} {}", bytes, report.prices.len());
}
