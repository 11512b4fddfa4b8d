//! Where the bytes of a store lie: in the layout that all calls take, called
//! half, and in the old one of the two moves, called full. Written here once more
//! by row and column, so that a slip in the library or in the reference shows.

use super::plans::Owned;

/// Which bytes of its rows a store keeps.
#[derive(Clone, Copy, Debug, PartialEq, Eq)]
pub enum Layout {
    /// Of row q the columns q to C - 1, and the right-hand side.
    Half,
    /// All columns of every row, and the right-hand side.
    Full,
}

pub const LAYOUTS: [Layout; 2] = [Layout::Half, Layout::Full];

impl Layout {
    /// The first column that row q keeps.
    pub fn first(self, q: usize) -> usize {
        match self {
            Layout::Half => q,
            Layout::Full => 0,
        }
    }

    /// Where row q begins.
    pub fn begin(self, columns: usize, q: usize) -> usize {
        match self {
            Layout::Half => q * (columns + 1) - q * q.saturating_sub(1) / 2,
            Layout::Full => q * (columns + 1),
        }
    }

    /// How many bytes there are.
    pub fn length(self, columns: usize) -> usize {
        self.begin(columns, columns)
    }

    /// The place of a column of a row, C being that of the right-hand side.
    /// There is none left of what the row keeps.
    pub fn place(self, columns: usize, row: usize, column: usize) -> Option<usize> {
        let behind = column.checked_sub(self.first(row))?;
        Some(self.begin(columns, row) + behind)
    }

    /// Every place by row and column, right-hand sides too.
    pub fn places(self, columns: usize) -> Vec<(usize, usize)> {
        let row = |row| (self.first(row)..=columns).map(move |column| (row, column));
        (0..columns).flat_map(row).collect()
    }

    /// The rows of this layout, each of C columns and a right-hand side.
    pub fn rows(self, columns: usize, store: &[u8]) -> Vec<Vec<u8>> {
        let row = |q: usize| {
            let kept = &store[self.begin(columns, q)..self.begin(columns, q + 1)];
            [&vec![0; self.first(q)], kept].concat()
        };
        (0..columns).map(row).collect()
    }

    /// The bytes of these rows. What a row does not keep is zero in it.
    pub fn store(self, rows: &[Vec<u8>]) -> Vec<u8> {
        let mut store = Vec::new();
        for (q, row) in rows.iter().enumerate() {
            let (left, kept) = row.split_at(self.first(q));
            assert!(left.iter().all(|&x| x == 0), "row {q} is not zero left");
            store.extend(kept);
        }
        store
    }
}

impl Owned {
    /// The rows of a store of this plan.
    pub fn rows(&self, store: &[u8]) -> Vec<Vec<u8>> {
        Layout::Half.rows(self.columns(), store)
    }

    /// The full store that a store of this plan stands for.
    pub fn widened(&self, store: &[u8]) -> Vec<u8> {
        Layout::Full.store(&self.rows(store))
    }

    /// An empty store in the full layout.
    pub fn empty_full(&self) -> Vec<u8> {
        vec![0; Layout::Full.length(self.columns())]
    }
}
