//! crossbeam-epoch on the work of `stand`: a section is a pin, and a round of `cycle` makes 256 bytes and defers their drop within one.
#[allow(dead_code)]
mod peer;

use crossbeam_epoch::{Collector, Owned};
use peer::{Block, time_work, word};
use std::hint::black_box;

fn main() {
    let collector = Collector::new();
    let sections = |_| {
        let local = collector.register();
        move |rounds| (0..rounds).for_each(|_| drop(black_box(local.pin())))
    };
    let cycles = |_| {
        let local = collector.register();
        move |rounds| {
            for round in 0..rounds {
                let guard = local.pin();
                let mut block: Owned<Block> = Owned::new([0; 32]);
                block[0] = round;
                let shared = black_box(block.into_shared(&guard));
                // Nobody else has seen it, so that it may be dropped once the sections of now are over.
                unsafe { guard.defer_destroy(shared) };
            }
        }
    };
    match word(1, String::new()).as_str() {
        "section" => time_work(sections),
        "cycle" => time_work(cycles),
        _ => std::process::exit(2),
    }
}
