//! Memory lent to the calls, and a copy that follows it: a refusal must leave both the same.

use oracle::Key;
use siting::{Lent, ROW_CELLS, ROW_WORDS, Watch, words_of};

/// A watch's memory and its copy.
pub struct Kept {
    now: Watch,
    before: Watch,
    /// How many numbers and cells of it are lent.
    lent: (usize, usize),
}

impl Kept {
    /// All of it is lent.
    pub fn new(now: Watch) -> Self {
        Self {
            before: now.clone(),
            lent: (now.rows.len(), now.cells.len()),
            now,
        }
    }

    /// The memory.
    pub fn now(&self) -> &Watch {
        &self.now
    }

    /// The numbers that are lent.
    pub fn rows(&self) -> &[u64] {
        &self.now.rows[..self.lent.0]
    }

    /// Lends only so many numbers and cells of it, at most all.
    pub fn cut(&mut self, rows: usize, cells: usize) {
        self.lent = (rows, cells);
    }

    /// The calls on what is lent.
    pub fn lent(&mut self) -> Lent<'_> {
        let Watch { rows, cells, ends } = &mut self.now;
        Lent::from_parts(&mut rows[..self.lent.0], &mut cells[..self.lent.1], ends)
    }

    /// A change from outside, made to both.
    pub fn set<T>(&mut self, mut change: impl FnMut(&mut Watch) -> T) -> T {
        change(&mut self.before);
        change(&mut self.now)
    }

    /// Whether no byte differs from the copy.
    pub fn unchanged(&self) -> bool {
        self.now == self.before
    }

    /// The copy follows an accepted call: all rows that changed, and the cells of those and of the
    /// rows of these keys. What else had changed would be seen at the next refusal.
    pub fn follow(&mut self, keys: impl Iterator<Item = Key>) {
        let keys: Vec<[u64; 4]> = keys.map(|key| words_of(&key)).collect();
        self.before.ends = self.now.ends;
        let rows = self.now.rows.chunks_exact(ROW_WORDS);
        let copies = self.before.rows.chunks_exact_mut(ROW_WORDS);
        let cells = self.now.cells.chunks_exact(ROW_CELLS);
        let copied = self.before.cells.chunks_exact_mut(ROW_CELLS);
        for ((row, copy), (cells, copied)) in rows.zip(copies).zip(cells.zip(copied)) {
            if row != copy || keys.iter().any(|key| row.starts_with(key)) {
                copy.copy_from_slice(row);
                copied.copy_from_slice(cells);
            }
        }
    }

    /// The copy becomes as the memory is.
    pub fn follow_all(&mut self) {
        self.before.clone_from(&self.now);
    }
}

#[cfg(test)]
mod tests {
    use super::*;

    /// A changed byte is seen, in memory that was not lent too; a followed change is not.
    #[test]
    fn a_change_is_seen() {
        let mut kept = Kept::new(Watch::new(3).expect("three rows"));
        assert!(kept.unchanged());
        kept.lent().claim(&[4; 32], None).expect("there is room");
        assert!(!kept.unchanged());
        kept.follow([[4; 32]].into_iter());
        assert!(kept.unchanged());
        kept.cut(ROW_WORDS, ROW_CELLS);
        assert!(kept.lent().fresh().is_ok());
        kept.follow_all();
        kept.now.cells[3 * ROW_CELLS - 1] ^= 1;
        assert!(!kept.unchanged());
    }
}
