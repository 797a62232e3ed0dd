//! Answers and how they are printed, for the other programs here.
use crate::read::Row;
use std::io::{self, Write};

/// The persons and objects that a person without an object reaches, where each object is owned.
pub fn reach(rows: &[Row], owners: &[Option<usize>], start: usize) -> (Vec<usize>, Vec<usize>) {
    let (mut persons, mut seen, mut next) = (vec![start], vec![false; rows.len()], 0);
    while let Some(person) = persons.get(next).copied() {
        next += 1;
        for (object, _) in &rows[person] {
            let j = *object as usize - 1;
            if !std::mem::replace(&mut seen[j], true) {
                persons.push(owners[j].unwrap());
            }
        }
    }
    persons.sort_unstable();
    (persons, (0..rows.len()).filter(|j| seen[*j]).collect())
}

fn write_list(out: &mut impl Write, word: &str, list: &[usize]) -> io::Result<()> {
    write!(out, "{word} {}", list.len())?;
    for number in list {
        write!(out, " {}", number + 1)?;
    }
    writeln!(out)
}

pub fn print_refusal(persons: &[usize], objects: &[usize]) -> io::Result<()> {
    let mut out = io::BufWriter::new(io::stdout().lock());
    writeln!(out, "infeasible")?;
    write_list(&mut out, "persons", persons)?;
    write_list(&mut out, "objects", objects)
}

fn cost_of(row: &Row, object: usize) -> i64 {
    row.iter().find(|pair| pair.0 as usize == object + 1).unwrap().1
}

pub fn print_assignment(rows: &[Row], owners: &[Option<usize>]) -> io::Result<()> {
    let mut out = io::BufWriter::new(io::stdout().lock());
    let mut objects = vec![0; rows.len()];
    for (j, owner) in owners.iter().enumerate() {
        objects[owner.unwrap()] = j;
    }
    let costs: Vec<i64> = objects.iter().zip(rows).map(|(j, row)| cost_of(row, *j)).collect();
    writeln!(out, "cost {}", costs.iter().sum::<i64>())?;
    for (i, (j, cost)) in objects.iter().zip(&costs).enumerate() {
        writeln!(out, "assign {} {} {cost}", i + 1, j + 1)?;
    }
    Ok(())
}
