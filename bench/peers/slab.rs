//! The crate slab on the work of `stand`: `slab hold 1 COUNT` holds so many blocks of 256 bytes, and their keys, while it writes.
#[allow(dead_code)]
mod peer;

use peer::{Block, word};
use slab::Slab;
use std::hint::black_box;

fn main() {
    let mut slab: Slab<Block> = Slab::new();
    let keys: Vec<usize> = (0..word(3, 1)).map(|key| slab.insert([key; 32])).collect();
    println!("{} held", black_box((&keys, &slab)).0.len());
}
