// Ours, not blart's: stands for src/bytes.rs and the files below it. Keys are byte strings, so the bytes of a key are the key.

use alloc::{boxed::Box, vec::Vec};

/// A key that is read as its bytes.
pub trait AsBytes {
    /// The bytes, in the order in which keys are compared.
    fn as_bytes(&self) -> &[u8];
}

impl AsBytes for Box<[u8]> {
    fn as_bytes(&self) -> &[u8] {
        self
    }
}

impl AsBytes for Vec<u8> {
    fn as_bytes(&self) -> &[u8] {
        self
    }
}
