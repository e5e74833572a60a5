//! Plain model of the row refresh tracker, for comparison in tests.
//! It is written from documents 01 and 02 alone, step by step, and shares no code with the
//! product.

pub mod bound;
pub mod check;
pub mod device;
pub mod disturbance;
pub mod figure;
pub mod hold;
pub mod limit;
pub mod listing;
pub mod plan;
pub mod random;
pub mod refusal;
pub mod remap;
pub mod settings;
pub mod silicon;
pub mod summary;
pub mod supplier;
pub mod trace;
pub mod tracker;
pub mod victims;
pub mod writer;
