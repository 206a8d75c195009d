// Ours, not blart's: stands for src/raw/representation/pointers.rs. A node is named by its kind beside its address; the crate puts the kind into the low bits.

use alloc::boxed::Box;
use core::{
    fmt,
    hash::{Hash, Hasher},
    marker::PhantomData,
    mem::{self, ManuallyDrop},
    ptr::{self, NonNull},
};

use crate::{
    allocator::Allocator,
    raw::{
        Header, InnerNode16, InnerNode4, InnerNode48, InnerNodeDirect, LeafNode, Node, NodeType,
    },
};

/// A node whose kind is known only when the program runs.
pub struct OpaqueNodePtr<K, V, const PREFIX_LEN: usize> {
    kind: NodeType,
    address: NonNull<()>,
    entry: PhantomData<(K, V)>,
}

impl<K, V, const PREFIX_LEN: usize> OpaqueNodePtr<K, V, PREFIX_LEN> {
    /// Whether the node is of this kind.
    pub fn is<N: Node<PREFIX_LEN>>(&self) -> bool {
        self.kind == N::TYPE
    }

    /// The node as one of this kind, if it is.
    pub fn cast<N: Node<PREFIX_LEN>>(self) -> Option<NodePtr<PREFIX_LEN, N>> {
        self.is::<N>().then(|| NodePtr(self.address.cast()))
    }

    /// The node by its kind.
    pub fn to_node_ptr(self) -> ConcreteNodePtr<K, V, PREFIX_LEN> {
        let address = self.address;
        match self.kind {
            NodeType::Node4 => ConcreteNodePtr::Node4(NodePtr(address.cast())),
            NodeType::Node16 => ConcreteNodePtr::Node16(NodePtr(address.cast())),
            NodeType::Node48 => ConcreteNodePtr::Node48(NodePtr(address.cast())),
            NodeType::Node256 => ConcreteNodePtr::Node256(NodePtr(address.cast())),
            NodeType::Leaf => ConcreteNodePtr::LeafNode(NodePtr(address.cast())),
        }
    }

    /// The head of an inner node, to be read.
    ///
    /// # Safety
    ///  - The node must be an inner one that nothing changes meanwhile.
    pub unsafe fn header_ref_unchecked<'a>(self) -> &'a Header<PREFIX_LEN> {
        // SAFETY: every inner node begins with its header
        unsafe { self.address.cast().as_ref() }
    }

    /// The head of an inner node, to be changed.
    ///
    /// # Safety
    ///  - The node must be an inner one that nothing else uses meanwhile.
    pub unsafe fn header_mut_unchecked<'a>(self) -> &'a mut Header<PREFIX_LEN> {
        // SAFETY: every inner node begins with its header
        unsafe { self.address.cast().as_mut() }
    }

    /// The head of the node, to be changed; `None` for a leaf.
    ///
    /// # Safety
    ///  - Nothing else may use the node meanwhile.
    pub unsafe fn header_mut<'a>(self) -> Option<&'a mut Header<PREFIX_LEN>> {
        // SAFETY: a node that is no leaf is an inner one
        (self.kind != NodeType::Leaf).then(|| unsafe { self.header_mut_unchecked() })
    }
}

impl<K, V, const PREFIX_LEN: usize> Copy for OpaqueNodePtr<K, V, PREFIX_LEN> {}

impl<K, V, const PREFIX_LEN: usize> Clone for OpaqueNodePtr<K, V, PREFIX_LEN> {
    fn clone(&self) -> Self {
        *self
    }
}

impl<K, V, const PREFIX_LEN: usize> Eq for OpaqueNodePtr<K, V, PREFIX_LEN> {}

impl<K, V, const PREFIX_LEN: usize> PartialEq for OpaqueNodePtr<K, V, PREFIX_LEN> {
    fn eq(&self, other: &Self) -> bool {
        self.address == other.address
    }
}

impl<K, V, const PREFIX_LEN: usize> Hash for OpaqueNodePtr<K, V, PREFIX_LEN> {
    fn hash<H: Hasher>(&self, state: &mut H) {
        self.address.hash(state);
    }
}

impl<K, V, const PREFIX_LEN: usize> fmt::Debug for OpaqueNodePtr<K, V, PREFIX_LEN> {
    fn fmt(&self, f: &mut fmt::Formatter<'_>) -> fmt::Result {
        write!(f, "{:?} at {:?}", self.kind, self.address)
    }
}

/// A node of a known kind.
pub struct NodePtr<const PREFIX_LEN: usize, N>(NonNull<N>);

impl<const PREFIX_LEN: usize, N: Node<PREFIX_LEN>> NodePtr<PREFIX_LEN, N> {
    /// Put a node on the heap.
    pub fn allocate_node_ptr<A: Allocator>(node: N, _alloc: &A) -> Self {
        NodePtr(NonNull::from(Box::leak(Box::new(node))))
    }

    /// Take a node off the heap.
    ///
    /// # Safety
    ///  - Nothing may use the pointer again.
    pub unsafe fn deallocate_node_ptr<A: Allocator>(node: Self, _alloc: &A) -> N {
        // SAFETY: every pointer comes from a box, and the caller vouches that this is its end
        *unsafe { Box::from_raw(node.0.as_ptr()) }
    }

    /// Put another node in the place of this one, and give this one back.
    ///
    /// # Safety
    ///  - Nothing else may use the node meanwhile.
    pub unsafe fn replace(node: Self, new: N) -> N {
        // SAFETY: covered by the caller
        mem::replace(unsafe { node.as_mut() }, new)
    }

    /// A copy of the node, which does not own what the node owns.
    pub fn read(self) -> ManuallyDrop<N> {
        // SAFETY: the pointer names a node, and the copy is never dropped
        ManuallyDrop::new(unsafe { ptr::read(self.0.as_ptr()) })
    }

    /// The node, to be read.
    ///
    /// # Safety
    ///  - Nothing may change the node meanwhile.
    pub unsafe fn as_ref<'a>(self) -> &'a N {
        // SAFETY: covered by the caller
        unsafe { self.0.as_ref() }
    }

    /// The node, to be changed.
    ///
    /// # Safety
    ///  - Nothing else may use the node meanwhile.
    pub unsafe fn as_mut<'a>(mut self) -> &'a mut N {
        // SAFETY: covered by the caller
        unsafe { self.0.as_mut() }
    }

    /// The same node without its kind in the type.
    pub fn to_opaque(self) -> OpaqueNodePtr<N::Key, N::Value, PREFIX_LEN> {
        OpaqueNodePtr {
            kind: N::TYPE,
            address: self.0.cast(),
            entry: PhantomData,
        }
    }
}

impl<const PREFIX_LEN: usize, K, V> NodePtr<PREFIX_LEN, LeafNode<K, V, PREFIX_LEN>> {
    /// The key of a leaf.
    ///
    /// # Safety
    ///  - Nothing may change the leaf meanwhile.
    pub unsafe fn as_key_ref<'a>(self) -> &'a K
    where
        V: 'a,
    {
        // SAFETY: covered by the caller
        unsafe { self.as_ref() }.key_ref()
    }

    /// The key and the value of a leaf.
    ///
    /// # Safety
    ///  - Nothing may change the leaf meanwhile.
    pub unsafe fn as_key_value_ref<'a>(self) -> (&'a K, &'a V) {
        // SAFETY: covered by the caller
        unsafe { self.as_ref() }.entry_ref()
    }

    /// The key of a leaf, and its value to be changed.
    ///
    /// # Safety
    ///  - Nothing else may use the leaf meanwhile.
    pub unsafe fn as_key_ref_value_mut<'a>(self) -> (&'a K, &'a mut V) {
        // SAFETY: covered by the caller
        let (key, value) = unsafe { self.as_mut() }.entry_mut();
        (key, value)
    }
}

impl<const PREFIX_LEN: usize, N> Copy for NodePtr<PREFIX_LEN, N> {}

impl<const PREFIX_LEN: usize, N> Clone for NodePtr<PREFIX_LEN, N> {
    fn clone(&self) -> Self {
        *self
    }
}

impl<const PREFIX_LEN: usize, N> Eq for NodePtr<PREFIX_LEN, N> {}

impl<const PREFIX_LEN: usize, N> PartialEq for NodePtr<PREFIX_LEN, N> {
    fn eq(&self, other: &Self) -> bool {
        self.0 == other.0
    }
}

impl<const PREFIX_LEN: usize, N> fmt::Debug for NodePtr<PREFIX_LEN, N> {
    fn fmt(&self, f: &mut fmt::Formatter<'_>) -> fmt::Result {
        write!(f, "{:?}", self.0)
    }
}

/// A node by its kind.
pub enum ConcreteNodePtr<K, V, const PREFIX_LEN: usize> {
    /// An inner node for up to 4 children.
    Node4(NodePtr<PREFIX_LEN, InnerNode4<K, V, PREFIX_LEN>>),
    /// An inner node for up to 16 children.
    Node16(NodePtr<PREFIX_LEN, InnerNode16<K, V, PREFIX_LEN>>),
    /// An inner node for up to 48 children.
    Node48(NodePtr<PREFIX_LEN, InnerNode48<K, V, PREFIX_LEN>>),
    /// An inner node for up to 256 children.
    Node256(NodePtr<PREFIX_LEN, InnerNodeDirect<K, V, PREFIX_LEN>>),
    /// A leaf.
    LeafNode(NodePtr<PREFIX_LEN, LeafNode<K, V, PREFIX_LEN>>),
}

/// A match on the kind of a node, with one arm for the inner kinds.
macro_rules! match_concrete_node_ptr {
    (match ($node:expr) {
        InnerNode($inner:ident) => $inner_arm:expr,
        LeafNode($leaf:ident) => $leaf_arm:expr $(,)?
    }) => {
        match $node {
            ConcreteNodePtr::Node4($inner) => $inner_arm,
            ConcreteNodePtr::Node16($inner) => $inner_arm,
            ConcreteNodePtr::Node48($inner) => $inner_arm,
            ConcreteNodePtr::Node256($inner) => $inner_arm,
            ConcreteNodePtr::LeafNode($leaf) => $leaf_arm,
        }
    };
}
pub(crate) use match_concrete_node_ptr;
