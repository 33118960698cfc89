//! Time as cells. The timeline 0..=4294967295 is cut into neighbouring cells; no endpoint that ever
//! occurs lies inside a cell, so everything that 01 asks "at t" has one answer for a whole cell and is
//! asked once per cell. A set of instants is a set of cell numbers.
//!
//! There is no interval arithmetic here: a span becomes a first and a last cell, and back to instants
//! it goes only where pairs are written (`Set::runs`).

use crate::LAST;
use std::sync::Arc;

/// How the timeline is cut. `firsts[i]` is the first instant of cell i; `firsts[0]` is 0; rising.
#[derive(Clone, Debug, PartialEq, Eq)]
pub struct Cells {
    firsts: Arc<Vec<u32>>,
}

impl Cells {
    /// One cell per instant from `first` for `count` instants, then one cell for the rest up to the last
    /// instant (if any is left); one cell for everything below `first` if `first` is above 0.
    pub fn window(first: u32, count: u32) -> Cells {
        let mut boundaries = Vec::new();
        for i in 0..=u64::from(count) {
            let instant = u64::from(first) + i;
            if instant <= u64::from(LAST) {
                boundaries.push(instant as u32);
            }
        }
        Cells::from_boundaries(boundaries)
    }

    /// Each number given is the first instant of a cell; 0 always is. Order and doubles do not matter.
    /// For an interval [a, b] to be nameable, a and b + 1 (unless b is the last instant) must be given.
    pub fn from_boundaries(mut boundaries: Vec<u32>) -> Cells {
        boundaries.push(0);
        boundaries.sort_unstable();
        boundaries.dedup();
        Cells { firsts: Arc::new(boundaries) }
    }

    /// How many cells there are (at least one).
    pub fn count(&self) -> usize {
        self.firsts.len()
    }

    /// The first instant of a cell; also its representative.
    pub fn first(&self, cell: usize) -> u32 {
        self.firsts[cell]
    }

    /// The last instant of a cell.
    pub fn last(&self, cell: usize) -> u32 {
        if cell + 1 == self.firsts.len() {
            LAST
        } else {
            self.firsts[cell + 1] - 1
        }
    }

    /// The cell in which an instant lies.
    pub fn cell_of(&self, instant: u32) -> usize {
        self.firsts.partition_point(|&first| first <= instant) - 1
    }

    /// The cell that starts with `start`. Panics if none does: the test cut the timeline wrongly.
    pub fn starting(&self, start: u32) -> usize {
        match self.firsts.binary_search(&start) {
            Ok(cell) => cell,
            Err(_) => panic!("fault of the test: start {start} is not the first instant of a cell"),
        }
    }

    /// The cell that ends with `end`. Panics if none does: the test cut the timeline wrongly.
    pub fn ending(&self, end: u32) -> usize {
        let cell = self.cell_of(end);
        if self.last(cell) != end {
            panic!("fault of the test: end {end} is not the last instant of a cell");
        }
        cell
    }
}

/// A set of cells, one bit each.
#[derive(Clone, Debug, Default, PartialEq, Eq)]
pub(crate) struct Set {
    words: Vec<u64>,
}

impl Set {
    pub fn empty(cells: &Cells) -> Set {
        Set { words: vec![0; cells.count().div_ceil(64)] }
    }

    /// The cells from `first` to `last`, both included.
    pub fn span(cells: &Cells, first: usize, last: usize) -> Set {
        let mut set = Set::empty(cells);
        for cell in first..=last {
            set.put(cell);
        }
        set
    }

    pub fn has(&self, cell: usize) -> bool {
        self.words[cell / 64] >> (cell % 64) & 1 == 1
    }

    pub fn put(&mut self, cell: usize) {
        self.words[cell / 64] |= 1 << (cell % 64);
    }

    pub fn drop(&mut self, cell: usize) {
        self.words[cell / 64] &= !(1 << (cell % 64));
    }

    pub fn is_empty(&self) -> bool {
        self.words.iter().all(|&word| word == 0)
    }

    /// Put in every cell of the other set.
    pub fn put_all(&mut self, other: &Set) {
        for (mine, theirs) in self.words.iter_mut().zip(&other.words) {
            *mine |= theirs;
        }
    }

    /// Take out every cell of the other set.
    pub fn drop_all(&mut self, other: &Set) {
        for (mine, theirs) in self.words.iter_mut().zip(&other.words) {
            *mine &= !theirs;
        }
    }

    /// How many longest runs of neighbouring cells there are: the cells that are in while the one before
    /// is not, 64 at a time.
    pub fn count_runs(&self) -> usize {
        let mut runs = 0;
        let mut before = 0; // the last cell of the word before, in the lowest bit
        for &word in &self.words {
            runs += (word & !(word << 1 | before)).count_ones() as usize;
            before = word >> 63;
        }
        runs
    }

    /// Hands over the longest runs of neighbouring cells, rising, as first and last instant.
    pub fn each_run(&self, cells: &Cells, mut take: impl FnMut(u32, u32)) {
        let mut open: Option<usize> = None;
        for cell in 0..cells.count() {
            match (open, self.has(cell)) {
                (None, true) => open = Some(cell),
                (Some(first), false) => {
                    take(cells.first(first), cells.last(cell - 1));
                    open = None;
                }
                _ => {}
            }
        }
        if let Some(first) = open {
            take(cells.first(first), LAST);
        }
    }

    /// The same as a list.
    pub fn runs(&self, cells: &Cells) -> Vec<(u32, u32)> {
        let mut runs = Vec::new();
        self.each_run(cells, |start, end| runs.push((start, end)));
        runs
    }
}
