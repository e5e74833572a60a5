//! The seven settings of a tracker and their tests.

use crate::refusal::Refusal;

pub const MAX_ROWS: u32 = 262_144;
pub const MAX_COUNTERS: u32 = 2_048;

/// The settings, in the order in which they are given and tested.
#[derive(Clone, Copy, Debug, PartialEq, Eq)]
pub struct Settings {
    /// 'N': rows in the bank.
    pub rows: u32,
    /// 'B': rows disturbed by one activation, half on each side.
    pub blast_diameter: u32,
    /// 'V': rows picked at a refresh event.
    pub volume: u32,
    /// 'C': counters.
    pub counters: u32,
    /// 'T': activations between two events.
    pub interval: u32,
    /// 'n': events in a window.
    pub window: u32,
    /// 'P': rows of the regular refresh at each event.
    pub block: u32,
}

impl Settings {
    /// The first refusal that applies, if any.
    pub fn check(&self) -> Result<(), Refusal> {
        self.check_before_counters()?;
        self.check_counters()?;
        self.check_after_counters()
    }

    /// The same without the test of `counters`, for calls that have no such setting.
    pub fn check_without_counters(&self) -> Result<(), Refusal> {
        self.check_before_counters()?;
        self.check_after_counters()
    }

    fn check_before_counters(&self) -> Result<(), Refusal> {
        if self.rows % 16 != 0 || self.rows < 16 || self.rows > MAX_ROWS {
            return Err(Refusal::Rows);
        }
        if self.blast_diameter != 2 && self.blast_diameter != 4 {
            return Err(Refusal::BlastDiameter);
        }
        if self.volume < 1 || self.volume > 16 {
            return Err(Refusal::Volume);
        }
        Ok(())
    }

    fn check_counters(&self) -> Result<(), Refusal> {
        if self.counters < self.volume || self.counters > MAX_COUNTERS {
            return Err(Refusal::Counters);
        }
        Ok(())
    }

    fn check_after_counters(&self) -> Result<(), Refusal> {
        if self.interval < 1 || self.interval > 4_096 {
            return Err(Refusal::Interval);
        }
        if self.window < 1 || self.window > 8_192 {
            return Err(Refusal::Window);
        }
        if self.block < 1 || self.block > 64 {
            return Err(Refusal::Block);
        }
        if u64::from(self.block) * u64::from(self.window) < u64::from(self.rows) {
            return Err(Refusal::Block);
        }
        Ok(())
    }
}
