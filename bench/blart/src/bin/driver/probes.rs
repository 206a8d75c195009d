// Ours: what is asked for docs/DIFFERENCES.md alone: one header by itself, trees that are damaged by hand, and bytes that are not in use.

use blart::raw::{ConcreteNodePtr, Header, InnerNodeCommon, NodeType};

use crate::drawing::{hex, Map};
use crate::Command;

pub type Head = Header<8>;

fn told(head: &Head) -> String {
    // the array behind the stored bytes is seen only through `clear_prefix`
    let (array, length, stored) = head.clone().clear_prefix();
    format!(
        "length {length} stored {} array {}",
        hex(&array[..stored]),
        hex(&array)
    )
}

/// Trim the header by `len` and fill it again from a leaf with this key.
fn trim_with_leaf(head: &mut Head, len: usize, depth: usize, key: Vec<u8>) -> Option<String> {
    let mut map = Map::new();
    map.try_insert(key.into(), 0).ok()?;
    let ConcreteNodePtr::LeafNode(leaf) = map.root()?.to_node_ptr() else {
        return None;
    };
    // SAFETY: the leaf belongs to a map of its own, which outlives the call
    unsafe { head.ltrim_by_with_leaf(len, depth, leaf) };
    Some(told(head))
}

/// Overwrite the prefix of the root.
fn overwrite_prefix(map: &mut Map, bytes: &[u8], length: usize) -> Option<String> {
    // SAFETY: the map is lent for changing, so that nothing else uses the node
    let head = unsafe { map.root()?.header_mut() }?;
    head.clear_prefix();
    head.push_prefix(bytes, length);
    Some(told(head))
}

/// Take a child out of a 16 node at the root, and nothing else. The leaf is lost, which a damaged tree may cost.
fn take_child(map: &mut Map, byte: u8) -> Option<String> {
    let ConcreteNodePtr::Node16(node) = map.root()?.to_node_ptr() else {
        return None;
    };
    // SAFETY: as above
    let node = unsafe { node.as_mut() };
    node.remove_child(byte)?;
    Some(format!("children {}", node.header().num_children()))
}

/// The whole array of key bytes of a 4 node at the root.
fn key_array(map: &Map) -> Option<String> {
    let ConcreteNodePtr::Node4(node) = map.root()?.to_node_ptr() else {
        return None;
    };
    // SAFETY: nothing changes the node while the map is lent
    let node = unsafe { node.as_ref() };
    Some(format!(
        "children {} array {}",
        node.header.num_children(),
        hex(&node.keys)
    ))
}

/// Each type of node with its number and the numbers of children that the checker allows.
fn types() -> String {
    use NodeType::*;
    [Node4, Node16, Node48, Node256, Leaf]
        .map(|kind| format!("{kind:?} {} {:?}", kind as u8, kind.capacity_range()))
        .join(", ")
}

/// The answer to a command for docs/DIFFERENCES.md; `None` for any other.
pub fn answer(map: &mut Map, head: &mut Head, command: &Command) -> Option<String> {
    let number = |i| command.number(i).map(|n| n as usize);
    match command.words[0] {
        "hnew" => *head = Head::new(&command.bytes(1)?, number(2)?),
        "hltrim" => head.ltrim_by(number(1)?),
        "hleaf" => return trim_with_leaf(head, number(1)?, number(2)?, command.bytes(3)?),
        "prefix" => return overwrite_prefix(map, &command.bytes(1)?, number(2)?),
        "take" => return take_child(map, *command.bytes(1)?.first()?),
        "keys" => return key_array(map),
        "types" => return Some(types()),
        "miscount" => return Some(map.miscount(number(1)?).to_string()),
        _ => return None,
    }
    Some(told(head))
}
