// Ours: the crate behind the command language of bench/README.md. One answer line for each command line.

mod drawing;
mod probes;

use std::any::Any;
use std::io::{self, Write};
use std::ops::Bound;
use std::panic::{catch_unwind, set_hook, AssertUnwindSafe};

use blart::visitor::WellFormedChecker;
use drawing::{canonical, draw, hex, Detail, Leaf, Map};

/// The words of a command line, read as what the command takes.
struct Command<'a> {
    words: Vec<&'a str>,
}

impl Command<'_> {
    /// Word `i` as bytes: `-` is no bytes, `'text` the text itself, anything else hexadecimal.
    fn bytes(&self, i: usize) -> Option<Vec<u8>> {
        let word = *self.words.get(i)?;
        if word == "-" {
            return Some(vec![]);
        }
        if let Some(text) = word.strip_prefix('\'') {
            return Some(text.as_bytes().to_vec());
        }
        if word.len() % 2 != 0 || !word.is_ascii() {
            return None;
        }
        (0..word.len() / 2)
            .map(|at| u8::from_str_radix(&word[2 * at..2 * at + 2], 16).ok())
            .collect()
    }

    /// Word `i` as a decimal number.
    fn number(&self, i: usize) -> Option<u64> {
        self.words.get(i)?.parse().ok()
    }
}

fn found(leaf: Option<&Leaf>) -> String {
    match leaf {
        Some(leaf) => format!("0 {} {}", hex(leaf.key_ref()), leaf.value_ref()),
        None => "1".into(),
    }
}

fn insert(map: &mut Map, key: Vec<u8>, value: u64) -> String {
    match map.try_insert(key.into(), value) {
        Ok(None) => "0 0 new".into(),
        Ok(Some(old)) => format!("0 {old} over"),
        Err(_) => "3".into(),
    }
}

fn delete(map: &mut Map, key: &[u8]) -> String {
    match map.remove(key) {
        Some(old) => format!("0 {old}"),
        None => "1".into(),
    }
}

fn at_or_after(map: &Map, key: &[u8]) -> String {
    match map.range(Bound::Included(key), Bound::Unbounded).next() {
        Some((key, value)) => format!("0 {} {value}", hex(key)),
        None => "1".into(),
    }
}

/// The crate has no such call: its range from these bytes on, for as long as they begin the keys, added up with room for any sum.
fn station_total(map: &Map, bytes: &[u8]) -> String {
    let (mut count, mut sum) = (0, 0u128);
    let from = map.range(Bound::Included(bytes), Bound::Unbounded);
    for (_, value) in from.take_while(|(key, _)| key.starts_with(bytes)) {
        count += 1;
        sum += u128::from(*value);
    }
    format!("0 {count} {} {}", sum as u64, sum >> 64)
}

fn next(map: &Map, key: &[u8]) -> String {
    match map.search(key) {
        Some(leaf) => found(map.next_leaf(leaf)),
        None => "9".into(),
    }
}

fn list(map: &Map) -> String {
    let (mut length, mut entries) = (0, String::new());
    let mut at = map.minimum();
    while let Some(leaf) = at {
        length += 1;
        entries += &format!(" {}={}", hex(leaf.key_ref()), leaf.value_ref());
        at = map.next_leaf(leaf);
    }
    format!("{length}{entries}")
}

fn canon(map: &Map) -> String {
    let entries: Vec<_> = map.range(Bound::Unbounded, Bound::Unbounded).collect();
    canonical(&entries, 0)
}

fn check(map: &Map) -> String {
    match WellFormedChecker::check(map) {
        Ok(stats) => format!("0 leaves {} inner {}", stats.num_leaf, stats.num_inner),
        Err(error) => format!("6 {error}"),
    }
}

fn reset(map: &mut Map) -> String {
    *map = Map::new();
    "0".into()
}

/// The answer to a command of the lists; `None` for any other.
fn listed(map: &mut Map, command: &Command) -> Option<String> {
    Some(match command.words[0] {
        "i" => insert(map, command.bytes(1)?, command.number(2)?),
        "d" => delete(map, &command.bytes(1)?),
        "s" => found(map.search(&command.bytes(1)?)),
        "p" => found(map.prefix_search(&command.bytes(1)?)),
        "min" => found(map.minimum()),
        "max" => found(map.maximum()),
        "ge" => at_or_after(map, &command.bytes(1)?),
        "station" => station_total(map, &command.bytes(1)?),
        "next" => next(map, &command.bytes(1)?),
        "list" => list(map),
        "count" => map.len().to_string(),
        "check" => check(map),
        "draw" => draw(map.root(), Detail::Drawing),
        "kinds" => draw(map.root(), Detail::Kinds),
        "slots" => draw(map.root(), Detail::Slots),
        "canon" => canon(map),
        // the port is told how many tags to make room for; the heap has room
        "reset" => reset(map),
        _ => return None,
    })
}

/// What a panic said, on one line.
fn message(panic: &dyn Any) -> String {
    let text = panic.downcast_ref::<String>().map(String::as_str);
    text.or(panic.downcast_ref::<&str>().copied())
        .unwrap_or("")
        .replace('\n', " ")
}

fn main() -> io::Result<()> {
    // a panic is an answer, so that nothing is to be said about it on stderr
    set_hook(Box::new(|_| {}));
    let (mut map, mut head) = (Map::new(), probes::Head::new(&[], 0));
    // a line at a time, so that no answer is lost if a later command stops the program
    let mut out = io::stdout().lock();
    for line in io::stdin().lines() {
        let line = line?;
        let words: Vec<&str> = line
            .split('#')
            .next()
            .unwrap_or("")
            .split_whitespace()
            .collect();
        if words.is_empty() {
            continue;
        }
        let command = Command { words };
        let answer = catch_unwind(AssertUnwindSafe(|| {
            listed(&mut map, &command).or_else(|| probes::answer(&mut map, &mut head, &command))
        }));
        match answer {
            Ok(Some(answer)) => writeln!(out, "{answer}")?,
            Ok(None) => writeln!(out, "? no such command")?,
            Err(panic) => writeln!(out, "panic {}", message(&*panic))?,
        }
    }
    Ok(())
}
