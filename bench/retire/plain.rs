//! What a retire list does, in plain Rust, to be timed beside it: by crossbeam-epoch's `defer`, and, with no epochs, by std's
//! `Mutex<VecDeque>`. Nothing of it is proved.
#[cfg(peer)]
use crossbeam_epoch::{Collector, Guard, LocalHandle};
use std::collections::VecDeque;
use std::hint::black_box;
#[cfg(peer)]
use std::sync::atomic::{AtomicU64, Ordering::Relaxed};
use std::sync::Mutex;
use std::time::Instant;

/// As in the list's program.
const BATCH: u64 = 64;
const BATCHES: u64 = 200;
const TRIES: u32 = 200;

/// What the values of a try come to.
const WHOLE: u64 = BATCHES * (BATCH * (BATCH - 1) / 2);

/// The least picoseconds a value.
fn least(mut work: impl FnMut()) -> u128 {
    let tries = (0..TRIES).map(|_| {
        let begin = Instant::now();
        work();
        begin.elapsed().as_nanos()
    });
    tries.min().unwrap_or(0) * 1000 / u128::from(BATCH * BATCHES)
}

fn push(queue: &Mutex<VecDeque<u64>>, value: u64) {
    queue.lock().unwrap().push_back(value);
}

fn pop(queue: &Mutex<VecDeque<u64>>) -> Option<u64> {
    queue.lock().unwrap().pop_front()
}

fn time_queue() {
    let queue = black_box(Mutex::new(VecDeque::new()));
    let took = least(|| {
        let mut sum = 0;
        for _ in 0..BATCHES {
            (0..BATCH).for_each(|value| push(&queue, value));
            sum += (0..BATCH).filter_map(|_| pop(&queue)).sum::<u64>();
        }
        assert_eq!(sum, WHOLE);
    });
    println!("queue   alone {took}");
}

/// The sum of what was run.
#[cfg(peer)]
static SUM: AtomicU64 = AtomicU64::new(0);

/// Hands a value over. What is run later takes two words of the four that it has, so that it takes no memory of its own.
#[cfg(peer)]
fn defer(guard: &Guard, value: u64) {
    guard.defer(move || SUM.store(SUM.load(Relaxed) + value, Relaxed));
}

/// Hands a batch over under one guard, or under one for each value, as where each is taken out in a section of its own.
#[cfg(peer)]
fn batch(writer: &LocalHandle, one: bool) {
    if one {
        let guard = writer.pin();
        (0..BATCH).for_each(|value| defer(&guard, value));
    } else {
        (0..BATCH).for_each(|value| defer(&writer.pin(), value));
    }
}

/// Batches with no reader, and a flush after each, which moves the epoch on and runs what is two epochs old.
#[cfg(peer)]
fn batches_alone(writer: &LocalHandle, one: bool) {
    for _ in 0..BATCHES {
        batch(writer, one);
        writer.pin().flush();
    }
}

/// The same while the reader is in a section, which it leaves for the next one between the batch and the flush.
#[cfg(peer)]
fn batches_read(reader: &LocalHandle, writer: &LocalHandle, one: bool) {
    for _ in 0..BATCHES {
        let section = reader.pin();
        batch(writer, one);
        drop(section);
        let _section = reader.pin();
        writer.pin().flush();
    }
}

#[cfg(peer)]
fn time_epochs() {
    for (one, guards) in [(false, "a value"), (true, "a batch")] {
        let collector = Collector::new();
        let (reader, writer) = (collector.register(), collector.register());
        SUM.store(0, Relaxed);
        let alone = least(|| batches_alone(&writer, one));
        let read = least(|| batches_read(&reader, &writer, one));
        for _ in 0..1_000 {
            writer.pin().flush();
        }
        assert_eq!(SUM.load(Relaxed), 2 * u64::from(TRIES) * WHOLE);
        println!("epochs  a guard {guards}: alone {alone}, read {read}");
    }
}

/// Hands so many values over while a reader is in a section, and tells it before and after.
#[cfg(peer)]
fn hold(count: u64) {
    let collector = Collector::new();
    let (reader, writer) = (collector.register(), collector.register());
    let section = reader.pin();
    println!("0 held");
    (0..count).for_each(|value| defer(&writer.pin(), value));
    println!("{count} held");
    drop(section);
}

fn main() {
    #[cfg(peer)]
    if let Some(count) = std::env::args().nth(1) {
        return hold(count.parse().unwrap_or(0));
    }
    time_queue();
    #[cfg(peer)]
    time_epochs();
}
