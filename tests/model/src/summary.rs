//! The Misra-Gries summary of disturbed rows: estimate, drop, disturb, pick.

use std::cmp::Reverse;

/// A tracked row.
#[derive(Clone, Copy, Debug, PartialEq, Eq)]
pub struct Entry {
    pub row: u32,
    pub count: u32,
}

#[derive(Clone, Debug)]
pub struct Summary {
    /// The most rows that can be tracked.
    pub counters: usize,
    /// The tracked rows, ascending by row.
    pub entries: Vec<Entry>,
    /// 'Spill': the figure that stands for every row not tracked.
    pub spillover: u32,
}

impl Summary {
    /// The count of a tracked row, else the spillover.
    pub fn estimate(&self, row: u32) -> u32 {
        match self.entries.iter().find(|entry| entry.row == row) {
            Some(entry) => entry.count,
            None => self.spillover,
        }
    }

    /// Ends the tracking of a row, if it is tracked.
    pub fn drop_row(&mut self, row: u32) {
        self.entries.retain(|entry| entry.row != row);
    }

    /// 'Disturbing one row'.
    pub fn disturb(&mut self, row: u32) {
        let spillover = self.spillover;
        if let Some(entry) = self.entries.iter_mut().find(|entry| entry.row == row) {
            entry.count += 1;
        } else if self.entries.len() < self.counters {
            self.enter(row);
        } else if let Some(lowest) = self.entries.iter().find(|entry| entry.count == spillover) {
            self.drop_row(lowest.row);
            self.enter(row);
        } else {
            self.spillover += 1;
        }
    }

    fn enter(&mut self, row: u32) {
        self.entries.push(Entry {
            row,
            count: self.spillover + 1,
        });
        self.entries.sort_by_key(|entry| entry.row);
    }

    /// The `volume` tracked rows of highest count, equal counts by lower row; all if fewer are
    /// tracked.
    pub fn pick(&self, volume: usize) -> Vec<u32> {
        let mut order = self.entries.clone();
        order.sort_by_key(|entry| (Reverse(entry.count), entry.row));
        order.truncate(volume);
        order.iter().map(|entry| entry.row).collect()
    }

    pub fn clear(&mut self) {
        self.entries.clear();
        self.spillover = 0;
    }
}
