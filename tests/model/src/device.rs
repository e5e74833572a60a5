//! A tracker with its tables, and the exact disturbance of its bank beside it.

use crate::disturbance::Disturbance;
use crate::refusal::Refusal;
use crate::remap::Remap;
use crate::settings::Settings;
use crate::summary::Summary;
use crate::tracker::{activate, read, refresh, set_up, Position};

#[derive(Clone)]
pub struct Device {
    pub settings: Settings,
    pub rows: Vec<u32>,
    pub counts: Vec<u32>,
    pub position: Position,
    pub disturbance: Disturbance,
}

impl Device {
    /// What the tables hold before is of no account.
    pub fn set_up(settings: Settings, remap: &Remap, before: u32) -> Result<Device, Refusal> {
        let mut rows = vec![before; settings.counters as usize];
        let mut counts = rows.clone();
        let position = set_up(&settings, &mut rows, &mut counts, remap)?;
        Ok(Device {
            settings,
            rows,
            counts,
            position,
            disturbance: Disturbance::set_up(&settings),
        })
    }

    pub fn activate(&mut self, logical_row: u32, hold: u32, remap: &Remap) -> Result<(), Refusal> {
        self.position = activate(
            &self.settings,
            &mut self.rows,
            &mut self.counts,
            self.position,
            logical_row,
            hold,
            remap,
        )?;
        self.disturbance.activate(logical_row, hold, remap);
        Ok(())
    }

    pub fn refresh(&mut self, length: u32) -> Result<(), Refusal> {
        let mut picks = vec![u32::MAX; length as usize];
        let (position, picked) = refresh(
            &self.settings,
            &mut self.rows,
            &mut self.counts,
            self.position,
            &mut picks,
        )?;
        self.position = position;
        self.disturbance.refresh(&picks[..picked]);
        Ok(())
    }

    pub fn summary(&self) -> Summary {
        read(&self.rows, &self.counts, self.position)
    }
}
