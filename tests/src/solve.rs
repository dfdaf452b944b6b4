//! The polynomial through given points, by Gauss elimination.

use crate::field::{multiply, reciprocal, subtract};

/// A row for each point: its powers from 0 up, then the value there.
type Rows = [[u32; 9]; 8];

/// The coefficients, constant first, of the one polynomial of lower degree than there are points that
/// has these values at these different points, of which there are at most eight.
pub fn solve(points: &[u32], values: &[u32]) -> Vec<u32> {
    let size = points.len();
    let mut rows: Rows = [[0; 9]; 8];
    for (row, (&point, &value)) in rows.iter_mut().zip(points.iter().zip(values)) {
        row[0] = 1;
        (1..size).for_each(|k| row[k] = multiply(row[k - 1], point));
        row[size] = value;
    }
    // No pivot is 0: the upper left corners of such a matrix are of the same kind.
    for k in 0..size {
        let scale = reciprocal(rows[k][k]);
        (k..=size).for_each(|i| rows[k][i] = multiply(rows[k][i], scale));
        for below in k + 1..size {
            take_away(&mut rows, below, k, k..=size);
        }
    }
    for k in (0..size).rev() {
        for above in 0..k {
            take_away(&mut rows, above, k, size..=size);
        }
    }
    rows[..size].iter().map(|row| row[size]).collect()
}

/// The factors that carry values at these points to 0: each is what the polynomial has there that is 1 at its
/// own point and 0 at the others.
pub fn factors(points: &[u32]) -> Vec<u32> {
    let factor = |own: &u32| {
        let values: Vec<u32> = points.iter().map(|point| u32::from(point == own)).collect();
        solve(points, &values)[0]
    };
    points.iter().map(factor).collect()
}

/// Takes so much of row k away from another that its entry in column k is, or counts as, 0.
fn take_away(rows: &mut Rows, from: usize, k: usize, columns: std::ops::RangeInclusive<usize>) {
    let times = rows[from][k];
    for i in columns {
        rows[from][i] = subtract(rows[from][i], multiply(times, rows[k][i]));
    }
}

/// Each way to take `size` of the first `of` indices, as a rising list. The lists come in dictionary
/// order: 0 1 2, then 0 1 3, 0 1 4, ..
pub fn subsets(of: usize, size: usize) -> Vec<Vec<usize>> {
    fn extend(
        from: usize,
        of: usize,
        size: usize,
        taken: &mut Vec<usize>,
        all: &mut Vec<Vec<usize>>,
    ) {
        if taken.len() == size {
            all.push(taken.clone());
            return;
        }
        for next in from..of {
            taken.push(next);
            extend(next + 1, of, size, taken, all);
            taken.pop();
        }
    }
    let mut all = Vec::new();
    extend(0, of, size, &mut Vec::new(), &mut all);
    all
}
