//! How long a row is kept open (document 02, C-16), in units.

use crate::refusal::Refusal;

pub const LONGEST_HOLD: u32 = 16;

/// 'A hold outside 1 to 16' is refused.
pub fn check_hold(hold: u32) -> Result<(), Refusal> {
    if (1..=LONGEST_HOLD).contains(&hold) {
        Ok(())
    } else {
        Err(Refusal::Hold)
    }
}
