//! A store in the old layout, kept by the book and without the reference: C rows
//! of C coefficients and a right-hand side, on which an equation is filed by Gauss
//! and Jordan. What filing on the new layout has to equal.

use super::layout::Layout;

/// What a filing answers: the column of a new row, C where it is implied, or None
/// where it contradicts.
pub type Filed = Option<usize>;

pub struct Old {
    p: usize,
    rows: Vec<Vec<usize>>,
}

impl Old {
    pub fn empty(p: usize, columns: usize) -> Old {
        let rows = vec![vec![0; columns + 1]; columns];
        Old { p, rows }
    }

    /// Takes so many times one row from another.
    fn take(p: usize, row: &mut [usize], times: usize, other: &[usize]) {
        for (x, y) in row.iter_mut().zip(other) {
            *x = (*x + (p - times) * y) % p;
        }
    }

    /// Files an equation: the coefficients and the right-hand side.
    pub fn file(&mut self, coefficients: &[u8], value: usize) -> Filed {
        let (p, columns) = (self.p, self.rows.len());
        let mut equation: Vec<usize> = coefficients.iter().map(|&x| x.into()).collect();
        equation.push(value);
        for (q, row) in self.rows.iter().enumerate() {
            if row[q] == 1 {
                let times = equation[q];
                Old::take(p, &mut equation, times, row);
            }
        }
        let Some(pivot) = (0..columns).find(|&j| equation[j] != 0) else {
            return (equation[columns] == 0).then_some(columns);
        };
        let inverse = (1..p).find(|x| x * equation[pivot] % p == 1);
        let inverse = inverse.expect("a residue of a prime");
        equation.iter_mut().for_each(|x| *x = *x * inverse % p);
        for row in &mut self.rows {
            let times = row[pivot];
            Old::take(p, row, times, &equation);
        }
        self.rows[pivot] = equation;
        Some(pivot)
    }

    /// The right-hand sides.
    pub fn coefficients(&self) -> Vec<u8> {
        let columns = self.rows.len();
        self.rows.iter().map(|row| row[columns] as u8).collect()
    }

    /// The bytes in a layout.
    pub fn bytes(&self, layout: Layout) -> Vec<u8> {
        let row = |row: &Vec<usize>| row.iter().map(|&x| x as u8).collect();
        layout.store(&self.rows.iter().map(row).collect::<Vec<Vec<u8>>>())
    }
}
