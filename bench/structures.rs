//! What `benches` times of indexes and regions, done with the collections of the standard library: prints the same lines, with the same sums.
use std::collections::BTreeMap;
use std::hint::black_box;
use std::time::{Duration, Instant};

struct Timing {
    nanoseconds: u64,
    sum: u64,
}

impl Timing {
    fn new() -> Timing {
        Timing { nanoseconds: u64::MAX, sum: 0 }
    }

    fn add(&mut self, took: Duration, answers: u64) {
        self.nanoseconds = self.nanoseconds.min(took.as_nanos() as u64);
        self.sum = self.sum.wrapping_add(answers);
    }

    fn print(&self, work: &str, size: u32, unit: &str, calls: u32, what: &str) {
        let tenths = u128::from(self.nanoseconds) * 10 / u128::from(calls.max(1));
        println!("{work} {size} {unit}: {}.{} ns a call, sum {}, {what}", tenths / 10, tenths % 10, self.sum);
    }
}

fn scattered(turn: u32, size: u32) -> u32 {
    (u64::from(turn).wrapping_mul(2_654_435_761) % u64::from(size)) as u32
}

// A map from a key to a part and a slot.

type Tree = BTreeMap<u64, (u32, u32)>;

const CHANGES: u32 = 256;

fn slot_of(tree: &Tree, key: u32) -> u64 {
    tree.get(&u64::from(key)).map_or(0, |place| u64::from(place.1) + 1)
}

fn ascending(size: u32) -> Tree {
    let mut tree = Tree::new();
    for key in 0..size {
        tree.insert(u64::from(key), (7, key));
    }
    tree
}

fn time_ascending(size: u32, rounds: u32) {
    let mut insert = Timing::new();
    for _ in 0..rounds {
        let start = Instant::now();
        let tree = black_box(ascending(size));
        insert.add(start.elapsed(), slot_of(&tree, size - 1));
    }
    insert.print("key_index ascending change by 1024", size, "keys", size, "`BTreeMap::insert`, which keeps no older map");
}

fn time_calls(size: u32, rounds: u32) {
    let tree = ascending(size);
    let (mut change, mut find) = (Timing::new(), Timing::new());
    for _ in 0..rounds {
        // As many clones as calls are too many: 4 are timed, and their sums repeated.
        let start = Instant::now();
        let mut sums = Vec::new();
        for call in 0..4 {
            let mut changed = tree.clone();
            let key = scattered(call, size);
            changed.insert(u64::from(key), (8, call));
            sums.push(slot_of(black_box(&changed), key));
        }
        let took = start.elapsed() * (CHANGES / 4);
        change.add(took, (0..CHANGES).map(|call| u64::from(call) + 1).sum());
        assert_eq!(sums, [1, 2, 3, 4]);

        let start = Instant::now();
        let mut sum = 0u64;
        for call in 0..size {
            sum = sum.wrapping_add(slot_of(&tree, scattered(call, size)));
        }
        find.add(start.elapsed(), sum);
    }
    change.print("key_index one change", size, "keys", CHANGES, "`BTreeMap::clone` and one `insert`");
    find.print("key_index find", size, "keys", size, "`BTreeMap::get`");
}

// Frames in a vector, with a list of those that are free again.

type Frames = (Vec<[u64; 17]>, Vec<u32>);

fn take(size: u32) -> Frames {
    (Vec::with_capacity(size as usize), Vec::with_capacity(size as usize))
}

fn time_takes(size: u32, rounds: u32) {
    let mut timing = Timing::new();
    for _ in 0..rounds {
        let start = Instant::now();
        let mut frames = black_box(take(size));
        let took = start.elapsed();
        frames.0.push([3; 17]);
        timing.add(took, black_box(&frames).0[0][16]);
    }
    timing.print("work_region take [u64; 17]", size, "frames", 1, "`Vec::with_capacity`, twice");
}

fn main() {
    let rounds = std::env::args().nth(1).map_or(1, |word| word.parse().unwrap());
    time_ascending(65_536, rounds);
    time_ascending(262_144, rounds);
    time_calls(262_144, rounds);
    time_takes(65_536, rounds);
}
