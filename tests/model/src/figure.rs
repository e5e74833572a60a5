//! A closer figure for each row (document 02, C-17): what its exact disturbance never exceeds so many
//! events into a window, and the call that gives it.

use crate::bound::{bound_at, disturbers};
use crate::refusal::Refusal;
use crate::remap::{check_remap, physical_row, Remap};
use crate::settings::Settings;
use crate::tracker::{check_position, Position};

/// 'b': the event of a window whose block holds the physical row.
pub fn own_event(settings: &Settings, row: u32) -> u32 {
    row / settings.block
}

/// The figures of accepted settings. `bound_at` gives H(i) for i from 1 to n.
pub struct Figures<'a, Bound: Fn(u32) -> u64> {
    pub settings: &'a Settings,
    pub bound_at: Bound,
}

impl<Bound: Fn(u32) -> u64> Figures<'_, Bound> {
    /// 'H(e + 1)': the figure of every row in the first window, and of a row whose event b the
    /// window has passed.
    pub fn present(&self, events: u32) -> u64 {
        (self.bound_at)(events + 1)
    }

    /// 'The smaller of H(n) and T' x (n - 1 - b)': what a physical row whose event b is still to
    /// come may have besides, from the window before.
    pub fn carried(&self, row: u32) -> u64 {
        let window = self.settings.window;
        let events_behind = u64::from(window - 1 - own_event(self.settings, row));
        (self.bound_at)(window).min(disturbers(self.settings) * events_behind)
    }

    /// The first figure where e is above b, else the second, 'without regard to which window it
    /// is'.
    pub fn figure(&self, events: u32, row: u32) -> u64 {
        if events > own_event(self.settings, row) {
            self.present(events)
        } else {
            self.present(events) + self.carried(row)
        }
    }

    /// The call on accepted settings.
    pub fn row_limit(
        &self,
        remap: &Remap,
        logical_row: u32,
        position: Position,
    ) -> Result<u64, Refusal> {
        if logical_row >= self.settings.rows {
            return Err(Refusal::LogicalRow);
        }
        check_remap(remap)?;
        check_position(self.settings, position)?;
        Ok(self.figure(position.events, physical_row(remap, logical_row)))
    }
}

/// The call: the figure of a logical row at a position.
pub fn row_limit(
    settings: &Settings,
    remap: &Remap,
    logical_row: u32,
    position: Position,
) -> Result<u64, Refusal> {
    settings.check()?;
    let figures = Figures {
        settings,
        bound_at: |events| bound_at(settings, events),
    };
    figures.row_limit(remap, logical_row, position)
}
