// Ours: a tree on one line.

use blart::raw::{ConcreteNodePtr, InnerNodeCommon, LeafNode, OpaqueNodePtr};
use blart::TreeMap;

pub type Key = Box<[u8]>;
pub type Map = TreeMap<Key, u64, 8>;
pub type Leaf = LeafNode<Key, u64, 8>;
pub type Ptr = OpaqueNodePtr<Key, u64, 8>;

/// How much of an inner node a drawing tells.
#[derive(Clone, Copy, PartialEq)]
pub enum Detail {
    /// Length, stored bytes and children.
    Drawing,
    /// The kind and the number of children too.
    Kinds,
    /// The slots of a 48 node, from 0, too.
    Slots,
}

/// Bytes in hexadecimal, `-` for none.
pub fn hex(bytes: &[u8]) -> String {
    if bytes.is_empty() {
        return "-".into();
    }
    bytes.iter().map(|byte| format!("{byte:02x}")).collect()
}

fn entry(key: &[u8], value: u64) -> String {
    format!("{}={value}", hex(key))
}

/// An inner node: its head, then each child behind its byte and the mark that `slot` gives for it.
fn inner<N: InnerNodeCommon<Key, u64, 8>>(
    node: &N,
    kind: u32,
    detail: Detail,
    slot: impl Fn(u8) -> String,
) -> String {
    let head = node.header();
    let mut text = String::from("[");
    if detail != Detail::Drawing {
        text += &format!("k{kind} n{} ", head.num_children());
    }
    text += &format!("{} {}", head.prefix_len(), hex(head.read_prefix()));
    for (byte, child) in node.iter() {
        text += &format!(" {byte:02x}{}:{}", slot(byte), draw(Some(child), detail));
    }
    text + "]"
}

/// A tree: a leaf is `KEY=VALUE`, an inner node `[LENGTH STORED BYTE:child ..]`, no tree `nothing`.
pub fn draw(root: Option<Ptr>, detail: Detail) -> String {
    let Some(root) = root else {
        return "nothing".into();
    };
    let none = |_| String::new();
    // SAFETY: the pointers come from a map that nothing changes meanwhile
    unsafe {
        match root.to_node_ptr() {
            ConcreteNodePtr::Node4(node) => inner(node.as_ref(), 1, detail, none),
            ConcreteNodePtr::Node16(node) => inner(node.as_ref(), 2, detail, none),
            ConcreteNodePtr::Node48(node) => {
                let node = node.as_ref();
                inner(node, 3, detail, |byte| {
                    match node.child_indices[byte as usize] {
                        Some(slot) if detail == Detail::Slots => format!("@{}", slot.get()),
                        _ => String::new(),
                    }
                })
            }
            ConcreteNodePtr::Node256(node) => inner(node.as_ref(), 4, detail, none),
            ConcreteNodePtr::LeafNode(leaf) => {
                let leaf = leaf.as_ref();
                entry(leaf.key_ref(), *leaf.value_ref())
            }
        }
    }
}

/// The drawing that sorted entries define from a depth on, made without a tree.
pub fn canonical(entries: &[(&Key, &u64)], depth: usize) -> String {
    let (first, last) = match entries {
        [] => return "nothing".into(),
        [(key, value)] => return entry(key, **value),
        [first, .., last] => (&first.0[depth..], &last.0[depth..]),
    };
    // what the ends of a sorted list share, all share
    let run = first.iter().zip(last).take_while(|(a, b)| a == b).count();
    let mut text = format!("[{run} {}", hex(&first[..run.min(8)]));
    let at = depth + run;
    for group in entries.chunk_by(|a, b| a.0[at] == b.0[at]) {
        text += &format!(" {:02x}:{}", group[0].0[at], canonical(group, at + 1));
    }
    text + "]"
}
