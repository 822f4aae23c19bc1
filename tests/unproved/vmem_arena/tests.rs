use super::Arena;
use rand_core::{Rng, SeedableRng};
use rand_xoshiro::Xoshiro256PlusPlus;
use std::alloc::{AllocError, Global};
use std::process::Abort;
use std::test::Fail;

mod plain;
mod rows;

use plain::Plain;

/// How many takes and gives the long run has.
const STEPS: u32 = 100_000;

/// One step of the long run, on both; a give is of any base that a take gave, or of one beside it.
fn step(
    rt: &impl Abort,
    alloc: Global,
    random: &mut Xoshiro256PlusPlus,
    arena: &mut Arena,
    plain: &mut Plain,
) -> Result<(), AllocError> {
    let word = random.next_u64();
    let choice = random.next_u64();
    if word % 2 == 0 {
        let size = match word / 2 % 8 {
            0 => choice % 1024,
            1 => 16,
            _ => choice % 200,
        };
        let answer = arena.take(alloc, size);
        assert!(rt; answer == plain.take(size)?, "take {size}");
    } else {
        let base = plain.some_base(choice) + word / 2 % 64 / 63;
        let answer = arena.give(base);
        assert!(rt; answer == plain.give(base), "give {base}");
        assert!(rt; arena.is_taken(base) == plain.is_taken(base));
    }
    assert!(rt; arena.free_total() == plain.free_total());
    Ok(())
}

fn long_run(rt: &impl Abort, alloc: Global, seed: u64) -> Result<(), Fail> {
    let mut random = Xoshiro256PlusPlus::seed_from_u64(seed);
    let mut arena = Arena::new(alloc, 16)?;
    let mut plain = Plain::new(alloc, 16);
    for k in 0..8 {
        let base = k * 2048;
        let size = if k % 2 == 0 { 2048 } else { 1024 };
        arena.add(alloc, base, size)?;
        plain.add(base, size)?;
    }
    for _ in 0..STEPS {
        step(rt, alloc, &mut random, &mut arena, &mut plain)?;
    }
    for base in plain.taken(alloc)? {
        assert!(rt; arena.give(base) == plain.give(base), "the end of {base}");
    }
    assert_eq!(rt; arena.free_total(), 4 * 2048 + 4 * 1024);
    Ok(())
}

#[test]
fn a_long_run_beside_a_plain_list(rt: HostRuntime) -> Result<(), Fail> {
    long_run(&rt, rt.alloc(), 20261129)
}
