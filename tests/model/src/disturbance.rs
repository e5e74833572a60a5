//! The exact disturbance of every row, counted beside a tracker without a look at its memory.

use std::collections::BTreeSet;

use crate::remap::{physical_row, Remap};
use crate::settings::Settings;
use crate::victims::{regular_block, victims};

/// 'True disturbance', kept by the 'plain counter'. It is told of accepted calls only, since a
/// refused call changes nothing.
#[derive(Clone)]
pub struct Disturbance {
    settings: Settings,
    /// One number for each physical row.
    counts: Vec<u64>,
    /// 'f': refresh events since the set up.
    events: u64,
    /// The physical rows that the last call disturbed.
    disturbed: Vec<u32>,
}

impl Disturbance {
    pub fn set_up(settings: &Settings) -> Disturbance {
        Disturbance {
            settings: *settings,
            counts: vec![0; settings.rows as usize],
            events: 0,
            disturbed: Vec::new(),
        }
    }

    /// `hold` and `remap` are the call's own; each unit counts.
    pub fn activate(&mut self, logical_row: u32, hold: u32, remap: &Remap) {
        let row = physical_row(remap, logical_row);
        self.disturbed.clear();
        for _ in 0..hold {
            self.counts[row as usize] = 0;
            self.disturb_victims(row);
        }
    }

    /// `picked` holds the rows that the event named.
    pub fn refresh(&mut self, picked: &[u32]) {
        let event = self.events % u64::from(self.settings.window);
        let mut refreshed = BTreeSet::from_iter(regular_block(&self.settings, event as u32));
        refreshed.extend(picked);
        self.disturbed.clear();
        for row in &refreshed {
            self.counts[*row as usize] = 0;
        }
        for row in &refreshed {
            self.disturb_victims(*row);
        }
        self.events += 1;
    }

    pub fn in_first_window(&self) -> bool {
        self.events < u64::from(self.settings.window)
    }

    pub fn events(&self) -> u64 {
        self.events
    }

    pub fn counts(&self) -> &[u64] {
        &self.counts
    }

    pub fn disturbed(&self) -> &[u32] {
        &self.disturbed
    }

    fn disturb_victims(&mut self, row: u32) {
        for victim in victims(&self.settings, row) {
            self.disturbed.push(victim);
            self.counts[victim as usize] += 1;
        }
    }
}
