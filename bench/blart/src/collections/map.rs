// Ours, not blart's: stands for src/collections/map.rs. It hands each call on to the raw operations and keeps the root that they give back.

//! A map over the raw operations.

use core::ops::Bound;

use crate::{
    allocator::{Allocator, Global},
    raw::{
        deallocate_tree, maximum_unchecked, minimum_unchecked, prefix_search_unchecked,
        search_for_delete_point, search_for_insert_point, search_unchecked, InsertPrefixError,
        LeafNode, NodePtr, OpaqueNodePtr, OptionalLeafPtr,
    },
    AsBytes,
};

mod iterators;
pub use iterators::Range;

/// How many bytes of a prefix a node stores.
pub const DEFAULT_PREFIX_LEN: usize = 8;

/// A tree that has a root, with the ends of its leaf list.
pub(crate) struct NonEmptyTree<K, V, const PREFIX_LEN: usize> {
    pub(crate) root: OpaqueNodePtr<K, V, PREFIX_LEN>,
    pub(crate) min_leaf: NodePtr<PREFIX_LEN, LeafNode<K, V, PREFIX_LEN>>,
    pub(crate) max_leaf: NodePtr<PREFIX_LEN, LeafNode<K, V, PREFIX_LEN>>,
}

impl<K, V, const PREFIX_LEN: usize> NonEmptyTree<K, V, PREFIX_LEN> {
    fn new(root: OpaqueNodePtr<K, V, PREFIX_LEN>) -> Self {
        // SAFETY: the map that asks owns the tree, and changes nothing meanwhile
        let (min_leaf, max_leaf) = unsafe { (minimum_unchecked(root), maximum_unchecked(root)) };
        Self {
            root,
            min_leaf,
            max_leaf,
        }
    }
}

/// A map from byte strings to values.
pub struct TreeMap<K, V, const PREFIX_LEN: usize = DEFAULT_PREFIX_LEN, A: Allocator = Global> {
    pub(crate) state: Option<NonEmptyTree<K, V, PREFIX_LEN>>,
    len: usize,
    alloc: A,
}

impl<K, V, const PREFIX_LEN: usize, A: Allocator> TreeMap<K, V, PREFIX_LEN, A> {
    /// The number of keys.
    pub fn len(&self) -> usize {
        self.len
    }

    /// Whether there is no key.
    pub fn is_empty(&self) -> bool {
        self.len == 0
    }

    /// Make the number of keys a wrong one, to see what the checker says.
    pub fn miscount(&mut self, len: usize) -> usize {
        self.len = len;
        len
    }

    /// The root of the tree.
    pub fn root(&self) -> Option<OpaqueNodePtr<K, V, PREFIX_LEN>> {
        self.state.as_ref().map(|state| state.root)
    }

    fn leaf(
        &self,
        found: OptionalLeafPtr<K, V, PREFIX_LEN>,
    ) -> Option<&LeafNode<K, V, PREFIX_LEN>> {
        // SAFETY: the answer is bound to the reference to the map, which owns the leaf
        found.map(|leaf| unsafe { leaf.as_ref() })
    }

    /// The leaf with the lowest key, found from the root.
    pub fn minimum(&self) -> Option<&LeafNode<K, V, PREFIX_LEN>> {
        // SAFETY: nothing changes the tree while the map is lent
        self.leaf(self.root().map(|root| unsafe { minimum_unchecked(root) }))
    }

    /// The leaf with the highest key, found from the root.
    pub fn maximum(&self) -> Option<&LeafNode<K, V, PREFIX_LEN>> {
        // SAFETY: nothing changes the tree while the map is lent
        self.leaf(self.root().map(|root| unsafe { maximum_unchecked(root) }))
    }

    /// The leaf after this one in the leaf list.
    pub fn next_leaf(
        &self,
        leaf: &LeafNode<K, V, PREFIX_LEN>,
    ) -> Option<&LeafNode<K, V, PREFIX_LEN>> {
        self.leaf(leaf.next)
    }
}

impl<K: AsBytes, V, const PREFIX_LEN: usize> TreeMap<K, V, PREFIX_LEN> {
    /// A map without keys.
    pub fn new() -> Self {
        Self {
            state: None,
            len: 0,
            alloc: Global,
        }
    }

    /// The leaf that holds the key.
    pub fn search(&self, key: &[u8]) -> Option<&LeafNode<K, V, PREFIX_LEN>> {
        // SAFETY: nothing changes the tree while the map is lent
        self.leaf(unsafe { search_unchecked(self.root()?, key) })
    }

    /// The leaf whose key begins the given bytes.
    pub fn prefix_search(&self, bytes: &[u8]) -> Option<&LeafNode<K, V, PREFIX_LEN>> {
        // SAFETY: nothing changes the tree while the map is lent
        self.leaf(unsafe { prefix_search_unchecked(self.root()?, bytes) })
    }

    /// The entries between two bounds, in order.
    pub fn range(&self, start: Bound<&[u8]>, end: Bound<&[u8]>) -> Range<'_, K, V, PREFIX_LEN> {
        Range::new(self, start, end)
    }

    /// Insert a key, or replace the value of a held one and give the old value back.
    ///
    /// # Errors
    ///  - The key begins a held one, or a held one begins it.
    pub fn try_insert(&mut self, key: K, value: V) -> Result<Option<V>, InsertPrefixError> {
        let Some(root) = self.root() else {
            let leaf = LeafNode::with_no_siblings(key, value);
            let root = NodePtr::allocate_node_ptr(leaf, &self.alloc).to_opaque();
            self.state = Some(NonEmptyTree::new(root));
            self.len = 1;
            return Ok(None);
        };
        // SAFETY: the map is lent for changing, so that no one else reads or writes the tree
        let result = unsafe {
            search_for_insert_point(root, key.as_bytes())?.apply(key, value, &self.alloc)
        };
        self.state = Some(NonEmptyTree::new(result.new_root));
        if result.existing_leaf.is_none() {
            self.len += 1;
        }
        Ok(result.existing_leaf.map(|leaf| leaf.into_entry().1))
    }

    /// Delete a key and give its value back.
    pub fn remove(&mut self, key: &[u8]) -> Option<V> {
        let root = self.root()?;
        // SAFETY: the map is lent for changing, so that no one else reads or writes the tree
        let result = unsafe { search_for_delete_point(root, key)?.apply(root, &self.alloc) };
        self.state = result.new_root.map(NonEmptyTree::new);
        self.len -= 1;
        Some(result.deleted_leaf.into_entry().1)
    }
}

impl<K, V, const PREFIX_LEN: usize, A: Allocator> Drop for TreeMap<K, V, PREFIX_LEN, A> {
    fn drop(&mut self) {
        if let Some(root) = self.root() {
            // SAFETY: the map owns the tree, and is not used again
            unsafe { deallocate_tree(root, &self.alloc) };
        }
    }
}
