//! Reads a trace of one zone from standard input and parses it as most would: by std's `lines`, `split` and `parse`, an operation in a vector
//! for each line. Nothing of it is proved.
use std::hint::black_box;
use std::io::{self, Read};
use std::str::Split;
use std::time::Instant;

enum Operation {
    Alloc { worker: u32, zone: u32, slot: u32 },
    Free { worker: u32, slot: u32 },
}

fn number(words: &mut Split<'_, char>) -> Option<u32> {
    words.next()?.parse().ok()
}

/// The number of a zone by its name.
fn zone(words: &mut Split<'_, char>) -> Option<u32> {
    (words.next()? == "box").then_some(0)
}

/// The operations behind the four lines of the head, as far as `end`.
fn parse(text: &str) -> Option<Vec<Operation>> {
    let mut operations = Vec::new();
    for line in text.lines().skip(4) {
        let mut words = line.split(' ');
        operations.push(match words.next()? {
            "alloc" => Operation::Alloc { worker: number(&mut words)?, zone: zone(&mut words)?, slot: number(&mut words)? },
            "free" => Operation::Free { worker: number(&mut words)?, slot: number(&mut words)? },
            "end" => return Some(operations),
            _ => return None,
        });
        if words.next().is_some() {
            return None;
        }
    }
    None
}

/// What is read of an operation, so that none of it is left out.
fn sum(operation: &Operation) -> u64 {
    match *operation {
        Operation::Alloc { worker, zone, slot } => u64::from(worker) + u64::from(zone) + u64::from(slot),
        Operation::Free { worker, slot } => u64::from(worker) + u64::from(slot),
    }
}

fn main() {
    let begin = Instant::now();
    let mut text = String::new();
    io::stdin().read_to_string(&mut text).expect("a text");
    let read = begin.elapsed();
    let begin = Instant::now();
    let operations = parse(&text).expect("a trace");
    let took = begin.elapsed();
    black_box(operations.iter().map(sum).sum::<u64>());
    println!("{} bytes: read in {} us, parsed in {} us", text.len(), read.as_micros(), took.as_micros());
}
