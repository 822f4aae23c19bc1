use super::ports::Ports;
use crate::{Import, ZCache, ZSeat};
use std::alloc::Global;
use std::sync::Wait;
use std::test::Fail;
use std::thread::{Threads, join};

/// What each thread allocates and frees.
const TURNS: u32 = 1_000;

/// Allocates and frees, two items at a time, and drains the seat. Answers how many items it got.
fn work<I: Import, R: Wait>(rt: &R, alloc: Global, cache: &ZCache<I>, seat: &mut ZSeat) -> u32 {
    let mut got = 0;
    for _ in 0..TURNS {
        let first = cache.alloc(rt, alloc, seat);
        let second = cache.alloc(rt, alloc, seat);
        for held in [first, second] {
            if let Ok(held) = held {
                got += 1;
                cache.free(rt, seat, held);
            }
        }
    }
    cache.drain(rt, seat);
    got
}

fn two_work<I: Import + Send, R: Threads + Wait + Sync>(
    rt: &R,
    alloc: Global,
    cache: &ZCache<I>,
    first: &mut ZSeat,
    second: &mut ZSeat,
) -> u32 {
    let (one, other) = join(
        rt,
        || work(rt, alloc, cache, first),
        || work(rt, alloc, cache, second),
    );
    one + other
}

/// Four threads on one cache zone of so many numbers over so many ports. Nothing is out when all have drained.
fn four_work<R: Threads + Wait + Sync>(
    rt: &R,
    alloc: Global,
    ports: usize,
    numbers: u32,
) -> Result<(u32, u32), Fail> {
    let cache = ZCache::new(alloc, Ports::new(alloc, ports)?, numbers)?;
    let mut a = cache.seat(rt, alloc, 4)?;
    let mut b = cache.seat(rt, alloc, 4)?;
    let mut c = cache.seat(rt, alloc, 64)?;
    let mut d = cache.seat(rt, alloc, 5)?;
    let (one, other) = join(
        rt,
        || two_work(rt, alloc, &cache, &mut a, &mut b),
        || two_work(rt, alloc, &cache, &mut c, &mut d),
    );
    Ok((one + other, cache.out(rt)))
}

#[test]
fn four_threads_leave_nothing_out(rt: HostRuntime) -> Result<(), Fail> {
    let (got, out) = four_work(&rt, rt.alloc(), 1_000, 1_000)?;
    assert!(rt; got == 8 * TURNS);
    assert!(rt; out == 0);
    Ok(())
}

#[test]
fn four_threads_that_are_refused_leave_nothing_out(rt: HostRuntime) -> Result<(), Fail> {
    for (ports, numbers) in [(6, 64), (64, 6)] {
        let (got, out) = four_work(&rt, rt.alloc(), ports, numbers)?;
        assert!(rt; got > 0);
        assert!(rt; out == 0);
    }
    Ok(())
}
