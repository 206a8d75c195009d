// Ours, not blart's: stands for src/raw/operations/clone.rs. Empty, because no tree is cloned in the comparison.
