//! Benefits of persons, and the scan of a row, for the other programs here.
use crate::read::Row;
use std::ops::{Add, Sub};

/// What prices are computed in: 128 bits, or 64 where that is enough.
pub trait Price: Copy + Ord + From<i64> + Add<Output = Self> + Sub<Output = Self> + Send + Sync {}
impl Price for i64 {}
impl Price for i128 {}

/// The benefits of a person, in the order of the objects.
pub enum Benefits {
    Full(Vec<i64>),
    Pairs(Vec<(u16, i64)>),
}

impl Benefits {
    pub fn of(row: &Row, n: usize) -> Benefits {
        let scale = n as i64 + 1;
        if row.len() == n {
            Benefits::Full(row.iter().map(|(_, cost)| -scale * cost).collect())
        } else {
            Benefits::Pairs(row.iter().map(|(object, cost)| (*object, -scale * cost)).collect())
        }
    }

    #[allow(dead_code)]
    pub fn len(&self) -> usize {
        match self {
            Benefits::Full(benefits) => benefits.len(),
            Benefits::Pairs(pairs) => pairs.len(),
        }
    }
}

/// The best object, its value, and the second value.
pub struct Best<P> {
    pub object: usize,
    pub value: P,
    pub second: Option<P>,
}

fn better<P: Price>(best: Option<Best<P>>, object: usize, value: P) -> Option<Best<P>> {
    match best {
        None => Some(Best { object, value, second: None }),
        Some(best) if value > best.value => Some(Best { object, value, second: Some(best.value) }),
        Some(best) => {
            let second = Some(best.second.map_or(value, |second| second.max(value)));
            Some(Best { second, ..best })
        }
    }
}

pub fn best_two<P: Price>(benefits: &Benefits, prices: &[P]) -> Option<Best<P>> {
    let mut best = None;
    match benefits {
        Benefits::Full(benefits) => {
            for (j, (benefit, price)) in benefits.iter().zip(prices).enumerate() {
                best = better(best, j, P::from(*benefit) - *price);
            }
        }
        Benefits::Pairs(pairs) => {
            for (object, benefit) in pairs {
                let j = *object as usize - 1;
                best = better(best, j, P::from(*benefit) - prices[j]);
            }
        }
    }
    best
}

/// The least and the greatest benefit, 0 where there is none.
pub fn range(rows: &[Benefits]) -> (i64, i64) {
    let (mut least, mut greatest) = (i64::MAX, i64::MIN);
    for row in rows {
        let mut take = |benefit: i64| (least, greatest) = (least.min(benefit), greatest.max(benefit));
        match row {
            Benefits::Full(benefits) => benefits.iter().copied().for_each(&mut take),
            Benefits::Pairs(pairs) => pairs.iter().map(|pair| pair.1).for_each(&mut take),
        }
    }
    if least > greatest { (0, 0) } else { (least, greatest) }
}
