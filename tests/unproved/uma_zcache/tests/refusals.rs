use super::ports::Ports;
use super::told::{alloc_told, cache_told, seat_told};
use crate::{ZAllocRefused, ZCache, ZRefused, ZSeatRefused};
use std::test::Fail;

#[test]
fn a_cache_has_1_to_262144_numbers(rt: HostRuntime) -> Result<(), Fail> {
    let alloc = rt.alloc();
    for numbers in [0, 262_145] {
        let refused = cache_told(ZCache::new(alloc, Ports::new(alloc, 1)?, numbers))?;
        assert!(rt; refused == Some(ZRefused::Numbers { numbers }));
    }
    for numbers in [1, 262_144] {
        let refused = cache_told(ZCache::new(alloc, Ports::new(alloc, 1)?, numbers))?;
        assert!(rt; refused.is_none());
    }
    Ok(())
}

#[test]
fn a_stack_has_room_for_4_to_64_items(rt: HostRuntime) -> Result<(), Fail> {
    let alloc = rt.alloc();
    let cache = ZCache::new(alloc, Ports::new(alloc, 1)?, 1)?;
    for bucket in [0, 3, 65] {
        let refused = seat_told(cache.seat(&rt, alloc, bucket))?;
        assert!(rt; refused == Some(ZSeatRefused::Bucket { bucket }));
    }
    for bucket in [4, 64] {
        assert!(rt; seat_told(cache.seat(&rt, alloc, bucket))?.is_none());
    }
    Ok(())
}

#[test]
fn where_all_numbers_are_out_that_is_the_refusal(rt: HostRuntime) -> Result<(), Fail> {
    let alloc = rt.alloc();
    let cache = ZCache::new(alloc, Ports::new(alloc, 8)?, 1)?;
    let mut first = cache.seat(&rt, alloc, 4)?;
    let mut second = cache.seat(&rt, alloc, 4)?;
    let held = cache.alloc(&rt, alloc, &mut first)?;
    assert!(rt; held.base() == 1_000 && held.no() == 0);
    let refused = alloc_told(cache.alloc(&rt, alloc, &mut second))?;
    assert!(rt; refused == Some(ZAllocRefused::Out { out: 1, numbers: 1 }));
    cache.free(&rt, &mut first, held);
    assert!(rt; cache.out(&rt) == 1);
    assert!(rt; cache.drain(&rt, &mut first) == 1);
    assert!(rt; cache.out(&rt) == 0);
    assert!(rt; cache.alloc(&rt, alloc, &mut second)?.base() == 1_000);
    Ok(())
}

#[test]
fn a_round_stops_at_the_importers_refusal(rt: HostRuntime) -> Result<(), Fail> {
    let alloc = rt.alloc();
    let cache = ZCache::new(alloc, Ports::new(alloc, 2)?, 8)?;
    let mut first = cache.seat(&rt, alloc, 4)?;
    let mut second = cache.seat(&rt, alloc, 4)?;
    assert!(rt; cache.alloc(&rt, alloc, &mut first)?.base() == 1_001);
    assert!(rt; cache.out(&rt) == 2);
    let refused = alloc_told(cache.alloc(&rt, alloc, &mut second))?;
    assert!(rt; refused == Some(ZAllocRefused::NoFit { size: 1, greatest: 0 }));
    assert!(rt; cache.alloc(&rt, alloc, &mut first)?.base() == 1_000);
    Ok(())
}

#[test]
fn a_full_stack_is_released_before_a_free(rt: HostRuntime) -> Result<(), Fail> {
    let alloc = rt.alloc();
    let cache = ZCache::new(alloc, Ports::new(alloc, 8)?, 8)?;
    let mut seat = cache.seat(&rt, alloc, 4)?;
    let mut held = Vec::new(alloc);
    for _ in 0..5 {
        held.push(cache.alloc(&rt, alloc, &mut seat)?)?;
    }
    assert!(rt; cache.out(&rt) == 8);
    // Three of the second round lie on the stack: one more fits, and the next finds it full.
    let Some(item) = held.pop() else {
        panic!(rt; "no item");
    };
    cache.free(&rt, &mut seat, item);
    assert!(rt; cache.out(&rt) == 8);
    let Some(item) = held.pop() else {
        panic!(rt; "no item");
    };
    let base = item.base();
    cache.free(&rt, &mut seat, item);
    assert!(rt; cache.out(&rt) == 4);
    assert!(rt; cache.alloc(&rt, alloc, &mut seat)?.base() == base);
    Ok(())
}
