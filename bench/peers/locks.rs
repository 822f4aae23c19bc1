//! What people write by std's locks alone, on the work of `stand`: a free list of boxes behind a Mutex, and names in a map behind an RwLock.
mod peer;

use peer::{Block, time_work, word};
use std::collections::HashMap;
use std::hint::black_box;
use std::sync::{Mutex, RwLock};

const NAMES: u64 = 4096;

/// Takes a box from the list, or makes one, writes to it and puts it back.
fn take_and_put(free: &Mutex<Vec<Box<Block>>>, rounds: u64) {
    for round in 0..rounds {
        let taken = free.lock().unwrap().pop();
        let mut block = taken.unwrap_or_else(|| Box::new([0; 32]));
        block[0] = round;
        free.lock().unwrap().push(black_box(block));
    }
}

fn look(map: &RwLock<HashMap<u64, u64>>, number: u64, rounds: u64) {
    for round in 0..rounds {
        let name = round.wrapping_mul(2_654_435_761).wrapping_add(number) % NAMES;
        assert!(black_box(map.read().unwrap().get(&name).copied()).is_some());
    }
}

fn main() {
    let free = Mutex::new((0..64).map(|_| Box::new([0; 32])).collect());
    let map = RwLock::new((0..NAMES).map(|name| (name, name)).collect());
    match word(1, String::new()).as_str() {
        "pair" => time_work(|_| |rounds| take_and_put(&free, rounds)),
        "look" => time_work(|number| { let map = &map; move |rounds| look(map, number, rounds) }),
        _ => std::process::exit(2),
    }
}
