// Ours, not blart's: stands for src/raw/visitor.rs. It has what the checker, the one visitor that was supplied, asks for.

//! Visitors of a tree.

use crate::raw::{
    match_concrete_node_ptr, ConcreteNodePtr, InnerNode, InnerNode16, InnerNode4, InnerNode48,
    InnerNodeDirect, LeafNode, OpaqueNodePtr,
};

mod well_formed;
pub use well_formed::*;

/// What can be visited.
pub trait Visitable<K, V, const PREFIX_LEN: usize> {
    /// Let the visitor see this.
    fn visit_with<T: Visitor<K, V, PREFIX_LEN>>(&self, visitor: &mut T) -> T::Output;
}

/// What sees each node once.
pub trait Visitor<K, V, const PREFIX_LEN: usize>: Sized {
    /// What a visit gives.
    type Output;

    /// What a visit to nothing gives.
    fn default_output(&self) -> Self::Output;

    /// What two visits together give.
    fn combine_output(&self, o1: Self::Output, o2: Self::Output) -> Self::Output;

    /// See an inner node.
    fn visit_inner_node<N>(&mut self, t: &N) -> Self::Output
    where
        N: InnerNode<PREFIX_LEN, Key = K, Value = V> + Visitable<K, V, PREFIX_LEN>;

    /// See a leaf.
    fn visit_leaf(&mut self, t: &LeafNode<K, V, PREFIX_LEN>) -> Self::Output;
}

impl<K, V, const PREFIX_LEN: usize> Visitable<K, V, PREFIX_LEN>
    for OpaqueNodePtr<K, V, PREFIX_LEN>
{
    fn visit_with<T: Visitor<K, V, PREFIX_LEN>>(&self, visitor: &mut T) -> T::Output {
        match_concrete_node_ptr!(match (self.to_node_ptr()) {
            // SAFETY: the checker holds a reference to the map, so that nothing changes the node
            InnerNode(inner) => visitor.visit_inner_node(unsafe { inner.as_ref() }),
            LeafNode(leaf) => visitor.visit_leaf(unsafe { leaf.as_ref() }),
        })
    }
}

macro_rules! visit_inner {
    ($($node:ident),*) => {$(
        impl<K, V, const PREFIX_LEN: usize> Visitable<K, V, PREFIX_LEN> for $node<K, V, PREFIX_LEN> {
            fn visit_with<T: Visitor<K, V, PREFIX_LEN>>(&self, visitor: &mut T) -> T::Output {
                visitor.visit_inner_node(self)
            }
        }
    )*};
}
visit_inner!(InnerNode4, InnerNode16, InnerNode48, InnerNodeDirect);
