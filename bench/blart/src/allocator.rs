// Ours, not blart's: stands for src/allocator.rs. Nodes come from the heap of the standard library, so an allocator carries nothing.

/// Where nodes come from.
pub trait Allocator {}

/// The heap of the standard library.
#[derive(Debug, Default)]
pub struct Global;

impl Allocator for Global {}
