//! Jonker and Volgenant's method (A shortest augmenting path algorithm for dense and sparse linear assignment problems,
//! Computing 38, 1987) in plain Rust: column reduction, reduction transfer, augmenting row reduction, and a shortest
//! augmenting path for each row that is left. Persons are rows, objects columns, numbered from 0.
use std::cmp::Reverse;
use std::collections::BinaryHeap;

const NONE: usize = usize::MAX;

/// Rows as the method sees them: the pairs of a row, and the cost of one.
trait Rows {
    fn each(&self, row: usize, take: impl FnMut(usize, i64));
    fn cost(&self, row: usize, column: usize) -> i64;
}

pub struct Dense<'a> {
    pub n: usize,
    pub costs: &'a [i64],
}

impl Dense<'_> {
    fn row(&self, row: usize) -> &[i64] {
        &self.costs[row * self.n..][..self.n]
    }
}

impl Rows for Dense<'_> {
    fn each(&self, row: usize, mut take: impl FnMut(usize, i64)) {
        for (column, cost) in self.row(row).iter().enumerate() {
            take(column, *cost);
        }
    }

    fn cost(&self, row: usize, column: usize) -> i64 {
        self.row(row)[column]
    }
}

/// Pairs of each row, their columns from 1 and rising.
pub struct Sparse<'a> {
    pub rows: &'a [Vec<(u16, i64)>],
}

impl Rows for Sparse<'_> {
    fn each(&self, row: usize, mut take: impl FnMut(usize, i64)) {
        for (column, cost) in &self.rows[row] {
            take(*column as usize - 1, *cost);
        }
    }

    fn cost(&self, row: usize, column: usize) -> i64 {
        let row = &self.rows[row];
        row[row.binary_search_by_key(&(column as u16 + 1), |pair| pair.0).unwrap()].1
    }
}

/// Rows' columns, columns' rows, columns' prices (what is taken off their costs), and the rows without a column.
struct State {
    columns: Vec<usize>,
    rows: Vec<usize>,
    prices: Vec<i64>,
    free: Vec<usize>,
}

impl State {
    fn join(&mut self, row: usize, column: usize) {
        self.columns[row] = column;
        self.rows[column] = row;
    }
}

/// Each column's least cost is its price, and its row gets it where the row has none.
fn reduce_columns(problem: &impl Rows, n: usize) -> State {
    let (mut prices, mut least) = (vec![i64::MAX; n], vec![NONE; n]);
    for row in 0..n {
        problem.each(row, |column, cost| {
            if cost < prices[column] {
                (prices[column], least[column]) = (cost, row);
            }
        });
    }
    let mut state = State { columns: vec![NONE; n], rows: vec![NONE; n], prices, free: Vec::new() };
    let mut matches = vec![0; n];
    for column in (0..n).rev() {
        let row = least[column];
        if row == NONE {
            state.prices[column] = 0;
            continue;
        }
        matches[row] += 1;
        if matches[row] == 1 {
            state.join(row, column);
        }
    }
    for row in 0..n {
        match matches[row] {
            0 => state.free.push(row),
            1 => transfer(problem, &mut state, row),
            _ => {}
        }
    }
    state
}

/// A row with one column lets it go for as little as its second best.
fn transfer(problem: &impl Rows, state: &mut State, row: usize) {
    let own = state.columns[row];
    let mut least = i64::MAX;
    problem.each(row, |column, cost| {
        if column != own {
            least = least.min(cost - state.prices[column]);
        }
    });
    if least != i64::MAX {
        state.prices[own] -= least;
    }
}

/// The two least reduced costs of a row, and where.
fn least_two(problem: &impl Rows, prices: &[i64], row: usize) -> [(i64, usize); 2] {
    let mut two = [(i64::MAX, NONE); 2];
    problem.each(row, |column, cost| {
        let reduced = cost - prices[column];
        if reduced < two[1].0 {
            two[1] = (reduced, column);
            if reduced < two[0].0 {
                two.swap(0, 1);
            }
        }
    });
    two
}

/// Rows without a column take their best; who loses one goes on at once where a price fell. `most` bounds it, since it
/// has no end where there is no assignment.
fn reduce_rows(problem: &impl Rows, state: &mut State, most: usize) {
    let (mut waiting, mut left) = (std::mem::take(&mut state.free), most);
    waiting.reverse();
    while let Some(row) = waiting.pop() {
        let [best, second] = least_two(problem, &state.prices, row);
        if best.1 == NONE || left == 0 {
            state.free.push(row);
            continue;
        }
        left -= 1;
        let falls = best.0 < second.0 && second.1 != NONE;
        let mut column = best.1;
        if falls {
            state.prices[column] -= second.0 - best.0;
        } else if state.rows[column] != NONE && second.1 != NONE {
            column = second.1;
        }
        let before = state.rows[column];
        if before != NONE && !falls && second.1 == NONE {
            state.free.push(row);
            continue;
        }
        state.join(row, column);
        if before != NONE {
            state.columns[before] = NONE;
            if falls { waiting.push(before) } else { state.free.push(before) }
        }
    }
}

/// Takes new columns back along a path, from its end.
fn walk_back(state: &mut State, from: &[usize], start: usize, end: usize) {
    let mut column = end;
    loop {
        let row = from[column];
        let left = state.columns[row];
        state.join(row, column);
        if row == start {
            return;
        }
        column = left;
    }
}

/// The shortest augmenting path from a row, in a dense problem: columns are ready, at the least distance, or beyond.
fn augment_dense(problem: &Dense, state: &mut State, start: usize, distances: &mut [i64], from: &mut [usize], order: &mut [usize]) {
    let n = problem.n;
    let first = problem.row(start);
    for column in 0..n {
        (distances[column], from[column], order[column]) = (first[column] - state.prices[column], start, column);
    }
    let (mut low, mut up, mut ready, mut least) = (0, 0, 0, 0);
    let end = 'search: loop {
        if low == up {
            ready = low;
            least = distances[order[up]];
            up += 1;
            for k in up..n {
                let column = order[k];
                let distance = distances[column];
                if distance <= least {
                    if distance < least {
                        (up, least) = (low, distance);
                    }
                    order.swap(k, up);
                    up += 1;
                }
            }
            if let Some(column) = order[low..up].iter().find(|column| state.rows[**column] == NONE) {
                break *column;
            }
        }
        let column = order[low];
        low += 1;
        let row = state.rows[column];
        let costs = problem.row(row);
        let shift = costs[column] - state.prices[column] - least;
        for k in up..n {
            let column = order[k];
            let distance = costs[column] - state.prices[column] - shift;
            if distance < distances[column] {
                from[column] = row;
                if distance == least {
                    if state.rows[column] == NONE {
                        break 'search column;
                    }
                    order.swap(k, up);
                    up += 1;
                }
                distances[column] = distance;
            }
        }
    };
    for column in &order[..ready] {
        state.prices[*column] += distances[*column] - least;
    }
    walk_back(state, from, start, end);
}

/// What a search over lists keeps: distances of the columns reached, and who reached them.
struct Reach {
    distances: Vec<i64>,
    from: Vec<usize>,
    reached: Vec<usize>,
    passed: Vec<usize>,
    heap: BinaryHeap<Reverse<(i64, usize)>>,
}

impl Reach {
    fn scan(&mut self, problem: &Sparse, prices: &[i64], row: usize, shift: i64) {
        problem.each(row, |column, cost| {
            let distance = cost - prices[column] - shift;
            if distance < self.distances[column] {
                if self.distances[column] == i64::MAX {
                    self.reached.push(column);
                }
                (self.distances[column], self.from[column]) = (distance, row);
                self.heap.push(Reverse((distance, column)));
            }
        });
    }

    fn clear(&mut self) {
        for column in self.reached.drain(..) {
            self.distances[column] = i64::MAX;
        }
        self.passed.clear();
        self.heap.clear();
    }
}

/// The same in a sparse problem, by a heap. Whether there is a path.
fn augment_sparse(problem: &Sparse, state: &mut State, start: usize, reach: &mut Reach) -> bool {
    reach.clear();
    reach.scan(problem, &state.prices, start, 0);
    while let Some(Reverse((distance, column))) = reach.heap.pop() {
        if distance > reach.distances[column] {
            continue;
        }
        let row = state.rows[column];
        if row == NONE {
            for passed in &reach.passed {
                state.prices[*passed] += reach.distances[*passed] - distance;
            }
            walk_back(state, &reach.from, start, column);
            return true;
        }
        reach.passed.push(column);
        let shift = problem.cost(row, column) - state.prices[column] - distance;
        reach.scan(problem, &state.prices, row, shift);
    }
    false
}

/// The columns of the rows, from 0.
pub fn solve_dense(problem: &Dense) -> Vec<usize> {
    let n = problem.n;
    let mut state = reduce_columns(problem, n);
    for _ in 0..2 {
        reduce_rows(problem, &mut state, 16 * n);
    }
    let (mut distances, mut from, mut order) = (vec![0; n], vec![0; n], vec![0; n]);
    for row in std::mem::take(&mut state.free) {
        augment_dense(problem, &mut state, row, &mut distances, &mut from, &mut order);
    }
    state.columns
}

/// The columns of the rows, from 0, where there is an assignment.
pub fn solve_sparse(problem: &Sparse) -> Option<Vec<usize>> {
    let n = problem.rows.len();
    let mut state = reduce_columns(problem, n);
    for _ in 0..2 {
        reduce_rows(problem, &mut state, 16 * n);
    }
    let mut reach = Reach {
        distances: vec![i64::MAX; n],
        from: vec![0; n],
        reached: Vec::new(),
        passed: Vec::new(),
        heap: BinaryHeap::new(),
    };
    for row in std::mem::take(&mut state.free) {
        if !augment_sparse(problem, &mut state, row, &mut reach) {
            return None;
        }
    }
    Some(state.columns)
}
