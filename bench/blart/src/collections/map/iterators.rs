// Ours, not blart's: stands for src/collections/map/iterators.rs. It leads to range.rs, the one iterator that was supplied.

mod range;
pub use range::*;
