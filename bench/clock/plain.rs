//! The steps of the running clock, written as plain atomics, to be timed beside it. Nothing of it is proved.
use std::sync::atomic::{AtomicU64, Ordering::SeqCst};
use std::time::Instant;

const WINDOW: u64 = 1 << 20;
const ROUNDS: u64 = 1_000_000;

// A word with a cache line of its own.
#[repr(align(64))]
struct Word(AtomicU64);

struct Clock {
    write: Word,
    read: Word,
    words: Vec<Word>,
}

impl Clock {
    fn new(seats: usize) -> Self {
        let words = (0..seats).map(|_| Word(AtomicU64::new(0))).collect();
        Clock { write: Word(AtomicU64::new(1)), read: Word(AtomicU64::new(1)), words }
    }

    fn enter(&self, seat: usize) -> bool {
        let loaded = self.write.0.load(SeqCst);
        self.words[seat].0.store(loaded & 0xffff_ffff, SeqCst);
        let found = self.write.0.load(SeqCst);
        if found - loaded >= WINDOW {
            self.exit(seat);
            return false;
        }
        true
    }

    fn exit(&self, seat: usize) {
        self.words[seat].0.store(0, SeqCst);
    }

    fn advance(&self) -> Option<u64> {
        let read = self.read.0.load(SeqCst);
        let write = self.write.0.load(SeqCst);
        if write + 2 >= 1 << 63 || write + 2 - read > WINDOW {
            return None;
        }
        let _ = self.write.0.compare_exchange(write, write + 2, SeqCst, SeqCst);
        Some(write + 2)
    }

    // A note and its absorb are loads here: the plain clock keeps nothing of what a pass has seen.
    fn load(&self) -> u64 {
        self.write.0.load(SeqCst)
    }

    fn reading(tag: u64, near: u64) -> Option<u64> {
        let below = near.wrapping_sub(tag) & 0xffff_ffff;
        (below < 1 << 31 && below <= near).then(|| near - below)
    }

    fn poll(&self, goal: u64) -> bool {
        let read = self.read.0.load(SeqCst);
        let write = self.write.0.load(SeqCst);
        let Some(reading) = Self::reading(goal & 0xffff_ffff, write) else {
            return true;
        };
        if reading <= read {
            return true;
        }
        let mut least = write;
        for word in &self.words {
            let word = word.0.load(SeqCst);
            if word != 0 {
                if let Some(entered) = Self::reading(word, write) {
                    least = least.min(entered.max(read));
                }
            }
        }
        let last = match self.read.0.compare_exchange(read, least, SeqCst, SeqCst) {
            Ok(_) => least,
            Err(found) => found,
        };
        reading <= last
    }
}

fn sections(clock: &Clock, seat: usize) {
    for _ in 0..ROUNDS {
        if clock.enter(seat) {
            clock.exit(seat);
        }
    }
}

fn turns(clock: &Clock) {
    for _ in 0..ROUNDS {
        if let Some(goal) = clock.advance() {
            std::hint::black_box(clock.load());
            std::hint::black_box(clock.load());
            std::hint::black_box(clock.poll(goal));
            std::hint::black_box(clock.load());
        }
    }
}

// Picoseconds a round of so many threads, the least of three tries.
fn time(threads: usize, work: impl Fn(usize) + Sync) -> u128 {
    let tries = (0..3).map(|_| {
        let start = Instant::now();
        std::thread::scope(|scope| {
            for seat in 0..threads {
                let work = &work;
                scope.spawn(move || work(seat));
            }
        });
        start.elapsed().as_nanos() / u128::from(ROUNDS / 1000)
    });
    tries.min().unwrap_or(0)
}

// A poll of a goal that a section is before.
fn polls(clock: &Clock) {
    clock.enter(0);
    if let Some(goal) = clock.advance() {
        for _ in 0..ROUNDS {
            std::hint::black_box(clock.poll(goal));
        }
    }
}

fn main() {
    for seats in [4, 64] {
        for threads in [1, 2, 4] {
            let clock = Clock::new(seats);
            let section = time(threads, |seat| sections(&clock, seat));
            let clock = Clock::new(seats);
            let turn = time(threads, |_| turns(&clock));
            println!("plain   {seats} seats, {threads} threads: section {section}, turn {turn}");
        }
        let clock = Clock::new(seats);
        println!("plain   {seats} seats, all scanned: poll {}", time(1, |_| polls(&clock)));
    }
}
