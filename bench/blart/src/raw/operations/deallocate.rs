// Ours, not blart's: stands for src/raw/operations/deallocate.rs. It frees a tree by recursion, since the trees of the comparison are shallow.

use crate::{
    allocator::Allocator,
    raw::{match_concrete_node_ptr, ConcreteNodePtr, InnerNodeCommon, NodePtr, OpaqueNodePtr},
};

/// Free a tree and say how many leaves it had.
///
/// # Safety
///  - Nothing may use a node of the tree again.
pub unsafe fn deallocate_tree<K, V, const PREFIX_LEN: usize, A: Allocator>(
    root: OpaqueNodePtr<K, V, PREFIX_LEN>,
    alloc: &A,
) -> usize {
    match_concrete_node_ptr!(match (root.to_node_ptr()) {
        InnerNode(inner) => {
            // SAFETY: the caller gives the whole tree up, and each node is freed once
            let node = unsafe { NodePtr::deallocate_node_ptr(inner, alloc) };
            node.iter()
                .map(|(_, child)| unsafe { deallocate_tree(child, alloc) })
                .sum()
        },
        LeafNode(leaf) => {
            // SAFETY: as above
            drop(unsafe { NodePtr::deallocate_node_ptr(leaf, alloc) });
            1
        },
    })
}
