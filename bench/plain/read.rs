//! Reading of dense and sparse problems, for the other programs here.
use std::io::Read;

pub type Row = Vec<(u16, i64)>;

/// Reads the numbers of a text in pieces of 64 KiB and hands them on, one after the other.
fn read_numbers(reader: &mut impl Read, mut take: impl FnMut(i64) -> Result<(), String>) -> Result<(), String> {
    let mut buffer = vec![0u8; 1 << 16];
    let (mut value, mut negative, mut open) = (0u64, false, false);
    loop {
        let count = reader.read(&mut buffer).map_err(|e| e.to_string())?;
        if count == 0 {
            break;
        }
        for byte in &buffer[..count] {
            match byte {
                b'0'..=b'9' => {
                    value = (value * 10 + u64::from(byte - b'0')).min(1_000_000_000_000_000_000);
                    open = true;
                }
                b'-' if !open => negative = true,
                b' ' | b'\t'..=b'\r' => {
                    if open {
                        take(if negative { -(value as i64) } else { value as i64 })?;
                    }
                    (value, negative, open) = (0, false, false);
                }
                _ => return Err("bad number".into()),
            }
        }
    }
    if open {
        take(if negative { -(value as i64) } else { value as i64 })?;
    }
    Ok(())
}

fn judged(number: i64, least: i64, greatest: i64) -> Result<i64, String> {
    if number < least || number > greatest {
        return Err("number out of range".into());
    }
    Ok(number)
}

/// Reads a dense text as rows of pairs.
pub fn read_dense(reader: &mut impl Read) -> Result<Vec<Row>, String> {
    let (mut n, mut rows): (usize, Vec<Row>) = (0, Vec::new());
    read_numbers(reader, |number| {
        if n == 0 {
            n = judged(number, 1, 8192)? as usize;
            return Ok(());
        }
        let cost = judged(number, -1_000_000_000_000, 1_000_000_000_000)?;
        if rows.last().is_none_or(|row| row.len() == n) {
            if rows.len() == n {
                return Err("extra data".into());
            }
            rows.push(Vec::with_capacity(n));
        }
        let row = rows.last_mut().unwrap();
        row.push((row.len() as u16 + 1, cost));
        Ok(())
    })?;
    Ok(rows)
}

/// Reads a sparse text as rows of pairs, each pair once at its least cost.
pub fn read_sparse(reader: &mut impl Read) -> Result<Vec<Row>, String> {
    let (mut n, mut begun, mut triples) = (0, Vec::with_capacity(2), Vec::new());
    read_numbers(reader, |number| {
        if n == 0 {
            n = judged(number, 1, 8192)?;
        } else if begun.len() < 2 {
            begun.push(judged(number, 1, n)? as u16);
        } else {
            let cost = judged(number, -1_000_000_000_000, 1_000_000_000_000)?;
            triples.push((begun[0], begun[1], cost));
            begun.clear();
        }
        Ok(())
    })?;
    triples.sort_unstable();
    triples.dedup_by_key(|triple| (triple.0, triple.1));
    let mut rows: Vec<Row> = vec![Vec::new(); n as usize];
    for (person, object, cost) in triples {
        rows[person as usize - 1].push((object, cost));
    }
    Ok(rows)
}
