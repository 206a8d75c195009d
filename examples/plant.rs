//! The program of plant.c in Rust, with no crate: the flow totals of a small plant's pumps, in memory that this program lends, added up by station.
//!
//! examples/README.md says how to build it and how much memory to lend. The borrow checker sees to it that what is lent to one call does not overlap.

/// The functions of include/directory.h that are used here. A slice goes as a pointer and a count.
mod c {
    #[repr(C)]
    pub struct Found {
        pub number: u32,
        pub leaf: u32,
        pub total: u64,
    }

    #[repr(C)]
    pub struct Changed {
        pub number: u32,
        pub total: u64,
    }

    #[repr(C)]
    pub struct Station {
        pub number: u32,
        pub count: u32,
        pub low: u64,
        pub carries: u64,
    }

    #[link(name = "directory_c", kind = "static")]
    extern "C" {
        pub fn directory_start(words: *mut u32, word_count: usize, keys: *mut u8, key_count: usize, c1: u32, c2: u32, c3: u32, c4: u32, c5: u32) -> u32;
        pub fn directory_search(words: *const u32, word_count: usize, keys: *const u8, key_count: usize, tag: *const u8, tag_length: usize) -> Found;
        pub fn directory_check(words: *const u32, word_count: usize, keys: *const u8, key_count: usize, scratch: *mut u8, scratch_count: usize) -> u32;
        pub fn directory_station_total(words: *const u32, word_count: usize, keys: *const u8, key_count: usize, scratch: *mut u8, scratch_count: usize, beginning: *const u8, beginning_count: usize) -> Station;
        pub fn directory_insert(words: *mut u32, word_count: usize, keys: *mut u8, key_count: usize, scratch: *mut u8, scratch_count: usize, tag: *const u8, tag_length: usize, total: u64) -> Changed;
        pub fn directory_delete(words: *mut u32, word_count: usize, keys: *mut u8, key_count: usize, scratch: *mut u8, scratch_count: usize, tag: *const u8, tag_length: usize) -> Changed;
    }
}

/// A number given back, in words. 0 is said by each call in its own way.
fn meaning(number: u32) -> &'static str {
    match number {
        0 => "done",
        1 => "no such tag is held",
        2 => "refused, the tag is over 64 bytes long",
        3 => "refused, the tag begins a held tag, or a held tag begins it",
        4 => "refused, there is room for no more tags",
        5 => "refused, no record is free for a branching",
        6 => "the memory is damaged",
        7 => "scratch is too short",
        8 => "the memory is not of the size that the capacities need",
        9 => "no leaf in use has this number",
        _ => "a number that this program does not know",
    }
}

/// Everything that is lent. SAFETY of each call below: the slices are this struct's own vectors, and the tag is another slice.
struct Plant {
    words: Vec<u32>,
    keys: Vec<u8>,
    scratch: Vec<u8>,
}

impl Plant {
    /// Memory for so many tags, with capacities that always suffice, and an empty directory in it.
    fn start(tags: u32) -> Plant {
        let c = [tags, tags / 4, tags / 16, tags / 48, tags];
        let words = 19 * c[0] + 43 * c[1] + 315 * c[2] + 267 * c[3] + 6 * c[4] + 16;
        let scratch: u32 = c.iter().sum();
        let mut p = Plant { words: vec![0; words as usize], keys: vec![0; 64 * tags as usize], scratch: vec![0; scratch as usize] };
        println!("Lent for {} tags: {} words, {} key bytes, {} scratch bytes.", tags, p.words.len(), p.keys.len(), p.scratch.len());
        let number = unsafe { c::directory_start(p.words.as_mut_ptr(), p.words.len(), p.keys.as_mut_ptr(), p.keys.len(), c[0], c[1], c[2], c[3], c[4]) };
        println!("start: {}", meaning(number));
        p
    }

    fn insert(&mut self, tag: &[u8], total: u64) -> Result<u64, u32> {
        let (w, k, s) = (&mut self.words, &mut self.keys, &mut self.scratch);
        let a = unsafe { c::directory_insert(w.as_mut_ptr(), w.len(), k.as_mut_ptr(), k.len(), s.as_mut_ptr(), s.len(), tag.as_ptr(), tag.len(), total) };
        if a.number == 0 { Ok(a.total) } else { Err(a.number) }
    }

    fn delete(&mut self, tag: &[u8]) -> Result<u64, u32> {
        let (w, k, s) = (&mut self.words, &mut self.keys, &mut self.scratch);
        let a = unsafe { c::directory_delete(w.as_mut_ptr(), w.len(), k.as_mut_ptr(), k.len(), s.as_mut_ptr(), s.len(), tag.as_ptr(), tag.len()) };
        if a.number == 0 { Ok(a.total) } else { Err(a.number) }
    }

    fn search(&self, tag: &[u8]) -> Result<u64, u32> {
        let a = unsafe { c::directory_search(self.words.as_ptr(), self.words.len(), self.keys.as_ptr(), self.keys.len(), tag.as_ptr(), tag.len()) };
        if a.number == 0 { Ok(a.total) } else { Err(a.number) }
    }

    fn check(&mut self) -> u32 {
        let (w, k, s) = (&self.words, &self.keys, &mut self.scratch);
        unsafe { c::directory_check(w.as_ptr(), w.len(), k.as_ptr(), k.len(), s.as_mut_ptr(), s.len()) }
    }

    fn station(&mut self, name: &[u8]) -> Result<c::Station, u32> {
        let (w, k, s) = (&self.words, &self.keys, &mut self.scratch);
        let a = unsafe { c::directory_station_total(w.as_ptr(), w.len(), k.as_ptr(), k.len(), s.as_mut_ptr(), s.len(), name.as_ptr(), name.len()) };
        if a.number == 0 { Ok(a) } else { Err(a.number) }
    }
}

fn say_insert(p: &mut Plant, tag: &str, total: u64) {
    let number = p.insert(tag.as_bytes(), total).err().unwrap_or(0);
    println!("insert {tag} with {total}: {}", meaning(number));
}

/// A held tag is inserted again: the answer has the total that it had.
fn say_set(p: &mut Plant, tag: &str, total: u64) {
    match p.insert(tag.as_bytes(), total) {
        Ok(had) => println!("set {tag} to {total}: done, its total was {had}"),
        Err(number) => println!("set {tag} to {total}: {}", meaning(number)),
    }
}

fn say_scrap(p: &mut Plant, tag: &str) {
    match p.delete(tag.as_bytes()) {
        Ok(total) => println!("scrap {tag}: done, its total was {total}"),
        Err(number) => println!("scrap {tag}: {}", meaning(number)),
    }
}

fn say_search(p: &Plant, tag: &str) {
    match p.search(tag.as_bytes()) {
        Ok(total) => println!("search {tag}: its total is {total}"),
        Err(number) => println!("search {tag}: {}", meaning(number)),
    }
}

/// The pumps of a station and what they have pumped, exactly: carries times 2^64, and low.
fn say_station(p: &mut Plant, name: &str) {
    match p.station(name.as_bytes()) {
        Ok(a) => println!("station {name}: {} pumps, total flow {}, carries {}", a.count, a.low, a.carries),
        Err(number) => println!("station {name}: {}", meaning(number)),
    }
}

/// What is put in. For the ninth pump there is no room; the last tag begins held tags.
const ROWS: [(&str, u64); 10] = [
    ("L14/P2/FLOW", 97310),
    ("L14/P1/FLOW", 184205),
    ("L15/P1/FLOW", 203511),
    ("L15/P2/FLOW", 199402),
    ("L16/P1/FLOW", 8630),
    ("L17/P2/FLOW", 40213),
    ("L17/P1/FLOW", 51877),
    ("L14/P3/FLOW", 66120),
    ("L16/P2/FLOW", 1204),
    ("L14/P1", 1),
];

fn main() {
    let mut p = Plant::start(8);
    for (tag, total) in ROWS {
        say_insert(&mut p, tag, total);
    }
    say_search(&p, "L14/P2/FLOW");
    say_search(&p, "L14/P9/FLOW");
    say_set(&mut p, "L14/P2/FLOW", 97355);
    say_scrap(&mut p, "L16/P1/FLOW");
    say_scrap(&mut p, "L16/P1/FLOW");
    let number = p.check();
    println!("check: {}", if number == 0 { "the directory is sound" } else { meaning(number) });
    for name in ["L14/", "L15/", "L16/", "L17/"] {
        say_station(&mut p, name);
    }
    std::process::exit(if number == 0 { 0 } else { 1 });
}
