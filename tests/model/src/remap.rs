//! From the logical row that a command names ('bus row') to the physical row ('die row').

use crate::refusal::Refusal;

/// 'Fold': what replaces a row's remainder by 16, for remainders 0 to 15.
pub type Remap = [u32; 16];

/// 'Our table', which is used until another is loaded.
pub const OUR_REMAP: Remap = [0, 1, 3, 2, 4, 5, 7, 6, 8, 9, 11, 10, 12, 13, 15, 14];

/// 'A table is accepted exactly when each of 0 to 15 occurs in it.'
pub fn check_remap(remap: &Remap) -> Result<(), Refusal> {
    if (0..16).all(|number| remap.contains(&number)) {
        Ok(())
    } else {
        Err(Refusal::Remap)
    }
}

pub fn physical_row(remap: &Remap, logical_row: u32) -> u32 {
    let quotient = logical_row / 16;
    let remainder = logical_row % 16;
    quotient * 16 + remap[remainder as usize]
}
