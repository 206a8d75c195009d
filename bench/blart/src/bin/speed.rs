// Ours: how long the crate's calls take. bench/speed.c does the same with the port: the same tags, the same order, the same number of calls; it says what is
// printed.

use std::hint::black_box;
use std::time::Instant;

use blart::visitor::WellFormedChecker;
use blart::TreeMap;

type Map = TreeMap<Box<[u8]>, u64, 8>;

// As in speed.c.
const RUNS: usize = 2;
const READS: usize = 40_000;
const CHECKS: usize = 10_000;
const CHANGES: usize = 4_096;

/// A tag, in room of the same size as the port's side has it.
#[derive(Clone, Copy)]
struct Name {
    bytes: [u8; 64],
    length: usize,
}

impl Name {
    fn new(text: &str) -> Self {
        let mut bytes = [0; 64];
        bytes[..text.len()].copy_from_slice(text.as_bytes());
        Self {
            bytes,
            length: text.len(),
        }
    }

    fn as_slice(&self) -> &[u8] {
        &self.bytes[..self.length]
    }

    /// The tag with more bytes after it, which a prefix search is given.
    fn longer(&self) -> Self {
        let mut longer = *self;
        longer.bytes[self.length..self.length + 4].copy_from_slice(b"/RAW");
        longer.length += 4;
        longer
    }
}

fn random64(state: &mut u64) -> u64 {
    *state = state.wrapping_add(0x9e37_79b9_7f4a_7c15);
    let mut z = *state;
    z = (z ^ (z >> 30)).wrapping_mul(0xbf58_476d_1ce4_e5b9);
    z = (z ^ (z >> 27)).wrapping_mul(0x94d0_49bb_1331_11eb);
    z ^ (z >> 31)
}

/// Tag i: four shapes in turn, each of one length, so that no tag begins another.
fn name(i: usize) -> Name {
    let k = i / 4;
    let (a, b, c) = (k / 32, k / 8 % 4, k % 8);
    Name::new(&match i % 4 {
        0 => format!("L{a:02}/P{b}/FLOW{c:02}"),
        1 => format!("SHAFT{a:02}/SUMP{b}/PUMP{c:02}/TOTAL"),
        2 => format!("FQ-{a:02}{b}{c:02}"),
        _ => format!("DEWATERING/LEVEL{a:02}/BORE{b}{c:02}/FLOW"),
    })
}

/// Shuffled, because a plant's tags are asked for in no order.
fn names(tags: usize) -> Vec<Name> {
    let (mut state, mut sum) = (1, 0xcbf2_9ce4_8422_2325u64);
    let mut names: Vec<Name> = (0..tags).map(name).collect();
    for i in (1..tags).rev() {
        names.swap(i, (random64(&mut state) % (i as u64 + 1)) as usize);
    }
    for byte in names.iter().flat_map(Name::as_slice) {
        sum = (sum ^ u64::from(*byte)).wrapping_mul(0x100_0000_01b3);
    }
    println!("tags {tags} {sum:016x}");
    names
}

/// The port copies a tag to its key bytes; here the copy is a box.
fn fill(map: &mut Map, names: &[Name]) {
    for (i, name) in names.iter().enumerate() {
        let new = map.try_insert(name.as_slice().into(), i as u64);
        assert!(matches!(new, Ok(None)));
    }
}

fn empty(map: &mut Map, names: &[Name]) {
    for name in names {
        assert!(map.remove(name.as_slice()).is_some());
    }
}

fn search(map: &Map, names: &[Name]) {
    for name in names {
        black_box(map.search(name.as_slice()).map(|leaf| *leaf.value_ref()));
    }
}

fn prefix_search(map: &Map, longer: &[Name]) {
    for name in longer {
        black_box(
            map.prefix_search(name.as_slice())
                .map(|leaf| *leaf.value_ref()),
        );
    }
}

fn minimum(map: &Map, calls: usize) {
    for _ in 0..calls {
        black_box(black_box(map).minimum().map(|leaf| *leaf.value_ref()));
    }
}

/// The totals all along the leaf list; the first leaf is looked up, and the other steps are next leaf.
fn next_leaf(map: &Map) {
    let mut at = map.minimum();
    while let Some(leaf) = at {
        black_box(*leaf.value_ref());
        at = map.next_leaf(leaf);
    }
}

fn check(map: &Map) {
    assert!(black_box(WellFormedChecker::check(map)).is_ok());
}

fn say(what: &str, tags: usize, nanoseconds: f64) {
    println!("{what} {tags} {nanoseconds:.1}");
}

/// A pass makes `calls` calls; as many passes as make `wanted` of them. The nanoseconds per call, of the lowest run.
fn time_passes(calls: usize, wanted: usize, pass: impl Fn()) -> f64 {
    let passes = wanted.div_ceil(calls);
    let run = |_| {
        let from = Instant::now();
        (0..passes).for_each(|_| pass());
        from.elapsed().as_nanos() as f64 / (passes * calls) as f64
    };
    (0..RUNS).map(run).fold(f64::INFINITY, f64::min)
}

/// From empty to all tags and back, over and over; the map is empty before and after. The nanoseconds per insert and per delete.
fn time_changes(map: &mut Map, names: &[Name]) -> (f64, f64) {
    let passes = CHANGES.div_ceil(names.len());
    let (mut inserts, mut deletes) = (f64::INFINITY, f64::INFINITY);
    for _ in 0..RUNS {
        let (mut filling, mut emptying) = (0, 0);
        for _ in 0..passes {
            let from = Instant::now();
            fill(map, names);
            let full = Instant::now();
            empty(map, names);
            filling += (full - from).as_nanos();
            emptying += full.elapsed().as_nanos();
        }
        inserts = inserts.min(filling as f64);
        deletes = deletes.min(emptying as f64);
    }
    let calls = (passes * names.len()) as f64;
    (inserts / calls, deletes / calls)
}

fn main() {
    for tags in [10, 100, 1000, 4096] {
        let names = names(tags);
        let longer: Vec<Name> = names.iter().map(Name::longer).collect();
        let mut map = Map::new();
        let (inserts, deletes) = time_changes(&mut map, &names);
        say("insert", tags, inserts);
        say("delete", tags, deletes);
        fill(&mut map, &names);
        say(
            "search",
            tags,
            time_passes(tags, READS, || search(&map, &names)),
        );
        say(
            "prefix_search",
            tags,
            time_passes(tags, READS, || prefix_search(&map, &longer)),
        );
        say(
            "minimum",
            tags,
            time_passes(tags, READS, || minimum(&map, tags)),
        );
        say(
            "next_leaf",
            tags,
            time_passes(tags, READS, || next_leaf(&map)),
        );
        say("check", tags, time_passes(1, CHECKS / tags, || check(&map)));
    }
}
