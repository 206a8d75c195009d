// Ours, not blart's: stands for src/raw/iterator.rs. It goes along the leaf list from both ends.

use crate::raw::{LeafNode, NodePtr};

type LeafPtr<K, V, const PREFIX_LEN: usize> = NodePtr<PREFIX_LEN, LeafNode<K, V, PREFIX_LEN>>;

/// The leaves from a first to a last one; `None` when all have been given.
pub struct RawIterator<K, V, const PREFIX_LEN: usize> {
    ends: Option<(LeafPtr<K, V, PREFIX_LEN>, LeafPtr<K, V, PREFIX_LEN>)>,
}

impl<K, V, const PREFIX_LEN: usize> RawIterator<K, V, PREFIX_LEN> {
    /// No leaves.
    pub fn empty() -> Self {
        Self { ends: None }
    }

    /// The leaves from `first` to `last`.
    ///
    /// # Safety
    ///  - `last` must be `first` or come after it in the leaf list.
    pub unsafe fn new(first: LeafPtr<K, V, PREFIX_LEN>, last: LeafPtr<K, V, PREFIX_LEN>) -> Self {
        Self {
            ends: Some((first, last)),
        }
    }

    /// The next leaf from the front.
    ///
    /// # Safety
    ///  - The leaf list must not change between calls.
    pub unsafe fn next(&mut self) -> Option<LeafPtr<K, V, PREFIX_LEN>> {
        let (first, last) = self.ends.take()?;
        if first != last {
            // SAFETY: the caller vouches for the list
            self.ends = unsafe { first.as_ref() }.next.map(|next| (next, last));
        }
        Some(first)
    }

    /// The next leaf from the back.
    ///
    /// # Safety
    ///  - The leaf list must not change between calls.
    pub unsafe fn next_back(&mut self) -> Option<LeafPtr<K, V, PREFIX_LEN>> {
        let (first, last) = self.ends.take()?;
        if first != last {
            // SAFETY: the caller vouches for the list
            self.ends = unsafe { last.as_ref() }
                .previous
                .map(|previous| (first, previous));
        }
        Some(last)
    }
}
