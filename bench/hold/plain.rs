//! The turns at a cell and the publishes beside them, written as plain atomics at the same places, and a clone of std's `Arc` behind its
//! RwLock, to be timed beside it. Nothing of it is proved.
use std::hint::black_box;
use std::sync::atomic::{AtomicU64, Ordering::SeqCst};
use std::sync::{Arc, RwLock};
use std::thread;
use std::time::Instant;

/// As in the program beside it.
const TURNS: u64 = 500_000;
const TRIES: u32 = 15;
const SEATS: usize = 5;
const SLOTS: usize = 8;
const WINDOW: u64 = 1 << 30;

/// The places of a clock's words and of a cell's, in words of eight bytes: each of the clock's has a line of its own, the cell's has two,
/// and so have the values and the holds of its slots.
const WRITE: usize = 0;
const READ: usize = 8;
const CELL: usize = 8 * (3 + SEATS);
const VALUES: usize = CELL + 16;
const HOLDS: usize = CELL + 32;
const WORDS: usize = CELL + 48;

fn seat_word(seat: usize) -> usize {
    8 * (2 + seat)
}

struct Words {
    // The counts are known only when it runs, as they are to a clock of cells.
    seats: usize,
    slots: usize,
    words: Vec<AtomicU64>,
}

/// What the thread that publishes knows of its cell: of each slot whether it is closed, and its stamp.
struct Owner {
    version: u64,
    current: Option<usize>,
    closed: [bool; SLOTS],
    stamps: [Option<u64>; SLOTS],
}

impl Owner {
    fn new() -> Self {
        Owner { version: 0, current: None, closed: [true; SLOTS], stamps: [None; SLOTS] }
    }
}

impl Words {
    fn new() -> Self {
        let words: Vec<_> = (0..WORDS).map(|_| AtomicU64::new(0)).collect();
        words[WRITE].store(1, SeqCst);
        words[READ].store(1, SeqCst);
        Words { seats: black_box(SEATS), slots: black_box(SLOTS), words }
    }

    // With no test of the place, since the calls of the proved crates have none either.
    fn word(&self, place: usize) -> &AtomicU64 {
        // SAFETY: each place is one of the words.
        unsafe { self.words.get_unchecked(place) }
    }

    fn load(&self, place: usize) -> u64 {
        self.word(place).load(SeqCst)
    }

    fn store(&self, place: usize, value: u64) {
        self.word(place).store(value, SeqCst);
    }

    fn enter(&self, seat: usize) -> bool {
        let loaded = self.load(WRITE);
        self.store(seat_word(seat), loaded & 0xffff_ffff);
        let found = self.load(WRITE);
        if found - loaded >= WINDOW {
            self.exit(seat);
            return false;
        }
        true
    }

    fn exit(&self, seat: usize) {
        self.store(seat_word(seat), 0);
    }

    /// One turn. Whether its read found the value that its look had found.
    fn turn(&self, seat: usize) -> bool {
        if !self.enter(seat) {
            return false;
        }
        let word = self.load(CELL);
        if word / 16 == 0 {
            self.exit(seat);
            return false;
        }
        let slot = (word % 16) as usize;
        let seen = self.load(VALUES + slot);
        self.word(HOLDS + slot).fetch_add(1, SeqCst);
        self.exit(seat);
        let value = self.load(VALUES + slot);
        self.word(HOLDS + slot).fetch_sub(1, SeqCst);
        value == seen
    }

    fn turns(&self, seat: usize) -> u64 {
        let mut well = 0;
        for _ in 0..TURNS {
            if self.turn(seat) {
                well += 1;
            }
        }
        well
    }

    fn reading(tag: u64, near: u64) -> Option<u64> {
        let below = near.wrapping_sub(tag) & 0xffff_ffff;
        (below < 1 << 31 && below <= near).then(|| near - below)
    }

    /// The hands go on, where no section keeps them from it.
    fn go_on(&self) {
        let read = self.load(READ);
        let write = self.load(WRITE);
        if write + 2 - read > WINDOW {
            return;
        }
        let _ = self.word(WRITE).compare_exchange(write, write + 2, SeqCst, SeqCst);
        let read = self.load(READ);
        let write = self.load(WRITE);
        let mut least = write;
        for seat in 0..self.seats {
            let word = self.load(seat_word(seat));
            if word != 0 {
                if let Some(entered) = Self::reading(word, write) {
                    least = least.min(entered.max(read));
                }
            }
        }
        let _ = self.word(READ).compare_exchange(read, least, SeqCst, SeqCst);
    }

    /// Whether the slot is closed, or could be.
    fn frees(&self, owner: &mut Owner, slot: usize) -> bool {
        if owner.current == Some(slot) {
            return false;
        }
        if owner.closed[slot] {
            return true;
        }
        let stamp = *owner.stamps[slot].get_or_insert_with(|| self.load(WRITE) + 2);
        if self.load(READ) < stamp || self.word(HOLDS + slot).compare_exchange(1, 0, SeqCst, SeqCst).is_err() {
            return false;
        }
        owner.closed[slot] = true;
        owner.stamps[slot] = None;
        true
    }

    fn publish(&self, owner: &mut Owner, value: u64) -> bool {
        let Some(slot) = (0..self.slots).find(|slot| self.frees(owner, *slot)) else {
            return false;
        };
        self.store(VALUES + slot, value);
        self.store(HOLDS + slot, 1);
        owner.closed[slot] = false;
        owner.version += 1;
        self.store(CELL, owner.version * 16 + slot as u64);
        if let Some(former) = owner.current.replace(slot) {
            owner.stamps[former] = Some(self.load(WRITE) + 2);
        }
        true
    }

    /// Publishes one value after another as long as others take turns. How many were published.
    fn puts(&self, turning: &AtomicU64, mut owner: Owner) -> u64 {
        let mut well = 0;
        for round in 0..u64::MAX {
            if turning.load(SeqCst) == 0 {
                break;
            }
            if self.publish(&mut owner, round) {
                well += 1;
            } else {
                self.go_on();
            }
        }
        well
    }
}

/// One turn of a lock: a clone of what is there, a load of it, and the end of the clone.
fn clones(lock: &RwLock<Arc<u64>>) -> u64 {
    let mut well = 0;
    for _ in 0..TURNS {
        let held = lock.read().unwrap().clone();
        if *black_box(&*held) != 0 {
            well += 1;
        }
    }
    well
}

fn replaces(lock: &RwLock<Arc<u64>>, turning: &AtomicU64) -> u64 {
    let mut well = 0;
    while turning.load(SeqCst) != 0 {
        well += 1;
        *lock.write().unwrap() = Arc::new(well);
    }
    well
}

/// The nanoseconds that so many threads take for their turns, and the publishes of the thread beside them.
fn run_threads(threads: usize, publishes: impl FnOnce(&AtomicU64) -> u64 + Send, turns: impl Fn(usize) -> u64 + Sync) -> (u64, u64) {
    let turning = AtomicU64::new(threads as u64);
    let begin = Instant::now();
    let published = thread::scope(|scope| {
        let (turning, turns) = (&turning, &turns);
        let publisher = scope.spawn(move || publishes(turning));
        for seat in 0..threads {
            scope.spawn(move || {
                assert_eq!(black_box(turns(seat)), TURNS);
                turning.fetch_sub(1, SeqCst);
            });
        }
        publisher.join().unwrap()
    });
    (begin.elapsed().as_nanos() as u64, published)
}

fn by_atomics(threads: usize) -> (u64, u64) {
    let words = Words::new();
    let mut owner = Owner::new();
    assert!(words.publish(&mut owner, 1));
    run_threads(threads, |turning| words.puts(turning, owner), |seat| words.turns(seat))
}

fn by_lock(threads: usize) -> (u64, u64) {
    let lock = RwLock::new(Arc::new(1));
    run_threads(threads, |turning| replaces(&lock, turning), |_| clones(&lock))
}

fn tell(name: &str, threads: usize, one: fn(usize) -> (u64, u64)) {
    let (took, well) = (0..TRIES).map(|_| one(threads)).min().unwrap();
    let each = took / (TURNS / 1000);
    println!("{name} {threads} turning: {each} picoseconds a turn, {well} publishes in {took} nanoseconds");
}

fn main() {
    for threads in [1, 4] {
        tell("plain  ", threads, by_atomics);
        tell("lock   ", threads, by_lock);
    }
}
