// Ours, not blart's: stands for src/collections.rs. The map alone; the set is not compared.

pub mod map;
pub use map::TreeMap;
