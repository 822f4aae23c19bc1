//! What the peers in Rust share. They are called as `stand` is, with WORK THREADS ROUNDS, and print the picoseconds a round, of the thread that
//! took longest, after a sixteenth of the rounds that isn't timed. Nothing of it is proved.
use std::env;
use std::str::FromStr;
use std::sync::Barrier;
use std::thread;
use std::time::Instant;

/// The data of an item.
pub type Block = [u64; 32];

/// The word of this place, or else this one.
pub fn word<T: FromStr>(place: usize, or: T) -> T {
    env::args().nth(place).and_then(|word| word.parse().ok()).unwrap_or(or)
}

/// Times rounds of the work that `make` gives each thread by its number.
pub fn time_work<W: FnMut(u64)>(make: impl Fn(u64) -> W + Sync) {
    let (threads, rounds) = (word(2, 1), word(3, 1 << 20));
    let begin = Barrier::new(threads as usize);
    let timed = |number| {
        let mut work = make(number);
        begin.wait();
        work(rounds / 16);
        let begin = Instant::now();
        work(rounds);
        begin.elapsed().as_nanos()
    };
    let most = thread::scope(|scope| {
        let running: Vec<_> = (0..threads).map(|number| scope.spawn(move || timed(number))).collect();
        running.into_iter().map(|thread| thread.join().unwrap()).max()
    });
    println!("{} picoseconds", most.unwrap_or(0) * 1000 / u128::from(rounds));
}
