//! Reads numbers, settings, remaps and lists of numbers from a query's words.

use std::str::{FromStr, SplitWhitespace};

use row_tracker_model::remap::{Remap, OUR_REMAP};
use row_tracker_model::settings::Settings;

pub struct Words<'a>(SplitWhitespace<'a>);

impl<'a> Words<'a> {
    pub fn new(line: &'a str) -> Words<'a> {
        Words(line.split_whitespace())
    }

    pub fn word(&mut self) -> Option<&'a str> {
        self.0.next()
    }

    pub fn number<T: FromStr>(&mut self) -> Option<T> {
        self.word()?.parse().ok()
    }

    pub fn settings(&mut self) -> Option<Settings> {
        Some(Settings {
            rows: self.number()?,
            blast_diameter: self.number()?,
            volume: self.number()?,
            counters: self.number()?,
            interval: self.number()?,
            window: self.number()?,
            block: self.number()?,
        })
    }

    pub fn remap(&mut self) -> Option<Remap> {
        let mut remap = OUR_REMAP;
        for number in &mut remap {
            *number = self.number()?;
        }
        Some(remap)
    }

    /// The length, then that many numbers.
    pub fn list(&mut self) -> Option<Vec<u32>> {
        let length: usize = self.number()?;
        (0..length).map(|_| self.number()).collect()
    }

    /// The value, if no word is left.
    pub fn last<T>(&mut self, value: T) -> Option<T> {
        self.word().is_none().then_some(value)
    }
}
