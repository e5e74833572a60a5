//! The tracker with an ordered map, and its settings.

use std::cmp::Reverse;
use std::collections::BTreeMap;

/// What replaces a row's remainder by 16, unless another one is loaded.
pub const OUR_REMAP: [u32; 16] = [0, 1, 3, 2, 4, 5, 7, 6, 8, 9, 11, 10, 12, 13, 15, 14];

pub fn is_permutation(remap: &[u32; 16]) -> bool {
    let mut sorted = *remap;
    sorted.sort_unstable();
    sorted.into_iter().eq(0..16)
}

/// Disturbance stays in a row's own subarray.
const SUBARRAY_ROWS: u32 = 512;

pub struct Settings {
    rows: u32,
    blast_diameter: u32,
    volume: u32,
    counters: u32,
    interval: u32,
    window: u32,
    block: u32,
}

impl Settings {
    pub fn new(numbers: [u32; 7]) -> Settings {
        let [rows, blast_diameter, volume, counters, interval, window, block] = numbers;
        Settings {
            rows,
            blast_diameter,
            volume,
            counters,
            interval,
            window,
            block,
        }
    }

    /// The error is the number of the first refusal.
    pub fn check(&self) -> Result<(), u32> {
        let tests = [
            self.rows % 16 == 0 && (16..=262_144).contains(&self.rows),
            self.blast_diameter == 2 || self.blast_diameter == 4,
            (1..=16).contains(&self.volume),
            (self.volume..=2_048).contains(&self.counters),
            (1..=4_096).contains(&self.interval),
            (1..=8_192).contains(&self.window),
            (1..=64).contains(&self.block) && self.block * self.window >= self.rows,
        ];
        match tests.iter().position(|good| !good) {
            None => Ok(()),
            Some(failed) => Err(failed as u32 + 1),
        }
    }

    /// H.
    pub fn bound(&self) -> u64 {
        let disturbers = u64::from(self.interval + self.volume + self.block);
        let size = |j: u32| u64::from((j * self.volume + 1).min(self.counters + 1));
        let mut total = 0;
        for j in (1..self.window).rev() {
            total += u64::from(self.blast_diameter) * disturbers;
            total = total * size(j - 1) / size(j);
        }
        total + disturbers
    }
}

pub struct Tracker {
    settings: Settings,
    remap: [u32; 16],
    counts: BTreeMap<u32, u32>,
    spillover: u32,
    pub events: u32,
    activations: u32,
}

impl Tracker {
    pub fn new(settings: Settings, remap: [u32; 16]) -> Tracker {
        Tracker {
            settings,
            remap,
            counts: BTreeMap::new(),
            spillover: 0,
            events: 0,
            activations: 0,
        }
    }

    /// Activates a row `hold` times; the error is the number of the refusal.
    pub fn activate(&mut self, logical_row: u32, hold: u32) -> Result<(), u32> {
        if logical_row >= self.settings.rows {
            return Err(9);
        }
        if !(1..=16).contains(&hold) {
            return Err(15);
        }
        if self.activations + hold > self.settings.interval {
            return Err(22);
        }
        let row = logical_row / 16 * 16 + self.remap[logical_row as usize % 16];
        self.counts.remove(&row);
        for _ in 0..hold {
            self.disturb_victims(row);
        }
        self.activations += hold;
        Ok(())
    }

    /// The picked rows.
    pub fn refresh(&mut self) -> Vec<u32> {
        let mut order: Vec<(u32, u32)> = self.counts.iter().map(|(r, c)| (*r, *c)).collect();
        order.sort_by_key(|(row, count)| (Reverse(*count), *row));
        order.truncate(self.settings.volume as usize);
        let picked: Vec<u32> = order.into_iter().map(|(row, _)| row).collect();

        let first = self.events * self.settings.block;
        let behind = (first + self.settings.block).min(self.settings.rows);
        for row in picked.iter().copied().chain(first..behind) {
            self.counts.remove(&row);
        }
        self.events += 1;
        if self.events == self.settings.window {
            self.counts.clear();
            self.spillover = 0;
            self.events = 0;
        }
        self.activations = 0;
        for row in &picked {
            self.disturb_victims(*row);
        }
        for row in first..behind {
            if !picked.contains(&row) {
                self.disturb_victims(row);
            }
        }
        picked
    }

    fn disturb_victims(&mut self, row: u32) {
        let reach = self.settings.blast_diameter / 2;
        let subarray = row / SUBARRAY_ROWS * SUBARRAY_ROWS;
        let first = row.saturating_sub(reach).max(subarray);
        let end = self.settings.rows.min(subarray + SUBARRAY_ROWS);
        for victim in first..(row + reach + 1).min(end) {
            if victim != row {
                self.disturb(victim);
            }
        }
    }

    fn disturb(&mut self, row: u32) {
        if let Some(count) = self.counts.get_mut(&row) {
            *count += 1;
            return;
        }
        if self.counts.len() == self.settings.counters as usize {
            let lowest = self.counts.iter().find(|(_, c)| **c == self.spillover);
            let Some((&lowest, _)) = lowest else {
                self.spillover += 1;
                return;
            };
            self.counts.remove(&lowest);
        }
        self.counts.insert(row, self.spillover + 1);
    }
}
