//! The loads of a find, written as plain atomics, to be timed beside it; and looks in std's HashMap behind its RwLock, while one more
//! thread writes it. Nothing of it is proved.
use std::collections::HashMap;
use std::hint::black_box;
use std::sync::atomic::{AtomicU64, Ordering::SeqCst};
use std::sync::RwLock;
use std::thread;
use std::time::Instant;

const ROUNDS: u64 = 200_000;
const TRIES: u32 = 25;

/// So many keys are looked for.
const KEYS: u64 = 4096;

/// The least of them. It is above the number of rows, so that a look divides.
const LEAST_KEY: u64 = 4_096_000;

struct Names {
    // The number of rows, as wide as a clock of names has it.
    count: u32,
    rows: Vec<AtomicU64>,
    words: Vec<AtomicU64>,
}

// A load with no test of the place, since a find has none either.
fn load(words: &[AtomicU64], place: usize) -> u64 {
    // SAFETY: each place that a row's word names is one of the words.
    unsafe { words.get_unchecked(place) }.load(SeqCst)
}

impl Names {
    // Each row names the entry of its own number, with that number as its value.
    fn new(count: u32) -> Self {
        let rows = u64::from(count);
        let word = |word| {
            if word % 2 == 0 {
                LEAST_KEY + word / 2
            } else {
                word / 2
            }
        };
        let words = (0..2 * rows).map(|at| AtomicU64::new(word(at))).collect();
        let rows = (0..rows)
            .map(|row| AtomicU64::new((1 << 20) + row + 1))
            .collect();
        Names { count, rows, words }
    }

    fn find(&self, key: u64) -> Option<u64> {
        let row = key % u64::from(self.count);
        let slot = load(&self.rows, row as usize) % (1 << 20);
        if slot == 0 {
            return None;
        }
        let entry = slot as usize - 1;
        if load(&self.words, 2 * entry) != key {
            return None;
        }
        Some(load(&self.words, 2 * entry + 1))
    }
}

fn time_finds() {
    // The number of rows is known only when it runs, as it is to a clock of names.
    let rows = black_box(4096);
    let names = Names::new(rows);
    let mut least = u128::MAX;
    let mut found = 0u64;
    for _ in 0..TRIES {
        let start = Instant::now();
        for round in 0..ROUNDS {
            let key = LEAST_KEY + round.wrapping_mul(2_654_435_761) % KEYS;
            if names.find(key).is_some() {
                found += 1;
            }
        }
        least = least.min(start.elapsed().as_nanos() / u128::from(ROUNDS / 1000));
    }
    println!("plain   find: {least} picoseconds, {found} found");
}

/// The looks of each thread, and the tries of which the least counts, as in the cache's program.
const LOOKS: u64 = 200_000;
const MAP_TRIES: u32 = 15;

type Map = RwLock<HashMap<u64, u64>>;

/// Looks one name up after another. The nanoseconds that it took.
fn looks(map: &Map, looking: &AtomicU64, number: u64) -> u64 {
    let begin = Instant::now();
    let mut found = 0;
    for round in 0..LOOKS {
        let key = (round * 7 + number) % KEYS;
        found += u64::from(map.read().unwrap().get(&key).is_some());
    }
    looking.fetch_sub(1, SeqCst);
    assert_eq!(black_box(found), LOOKS);
    begin.elapsed().as_nanos() as u64
}

/// Binds one name after another as long as others look. How many were bound.
fn binds(map: &Map, looking: &AtomicU64) -> u64 {
    let mut round = 0;
    while looking.load(SeqCst) != 0 {
        map.write().unwrap().insert(round % KEYS, round);
        round += 1;
    }
    round
}

/// The nanoseconds of the longest looks, and the binds of the thread beside them.
fn longest(threads: u64) -> (u64, u64) {
    let map: Map = RwLock::new((0..KEYS).map(|key| (key, key)).collect());
    let looking = AtomicU64::new(threads);
    thread::scope(|scope| {
        let (map, looking) = (&map, &looking);
        let binder = scope.spawn(move || binds(map, looking));
        let lookers: Vec<_> = (1..=threads).map(|number| scope.spawn(move || looks(map, looking, number))).collect();
        let longest = lookers.into_iter().map(|looker| looker.join().unwrap()).max().unwrap();
        (longest, binder.join().unwrap())
    })
}

fn time_maps() {
    for threads in [1, 4] {
        let (took, bound) = (0..MAP_TRIES).map(|_| longest(threads)).min().unwrap();
        let each = took / (LOOKS / 1000);
        println!("map     {threads} looking: {each} picoseconds a look, {bound} binds in {took} nanoseconds");
    }
}

fn main() {
    time_finds();
    time_maps();
}
