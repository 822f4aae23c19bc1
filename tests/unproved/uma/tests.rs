use crate::{DataLocal, DataPool, Filled, Plan, Pool, Refusal, Refused};
use std::alloc::Global;
use std::sync::Wait;
use std::test::Fail;

mod snippets;

type Numbers = DataPool<u64, Filled<u64>>;

/// A pool of items that begin as 7.
fn pool_of(alloc: Global, plan: Plan) -> Result<Numbers, Fail> {
    let pool = Pool::new(alloc, plan, Filled { value: 7u64 })?;
    Ok(pool)
}

/// Allocates an item and frees it at once. Its number.
fn turn_over<R: Wait>(
    rt: &R,
    alloc: Global,
    local: &mut DataLocal<'_, u64, Filled<u64>>,
) -> Result<u32, Fail> {
    let item = local.alloc(rt, alloc, 0)?;
    let no = item.no();
    local.free(rt, alloc, item).map_err(|back| back.why)?;
    Ok(no)
}

#[test]
fn a_drain_gives_back_what_another_local_then_gets(rt: HostRuntime) -> Result<(), Fail> {
    // One slab of four items, which the first local fetches all at once.
    let plan = Plan::new(2, 1_024).with_slabs(1).with_bucket(4);
    let pool = pool_of(rt.alloc(), plan)?;
    let mut first = pool.local(&rt, rt.alloc())?;
    let mut second = pool.local(&rt, rt.alloc())?;
    turn_over(&rt, rt.alloc(), &mut first)?;
    let refused = second.alloc(&rt, rt.alloc(), 0).map(|item| item.no()).err();
    assert_eq!(rt; refused, Some(Refused::Turned { refusal: Refusal::Full { slabs: 1, made: 1 } }));
    assert_eq!(rt; first.drain(&rt, rt.alloc())?, 4);
    turn_over(&rt, rt.alloc(), &mut second)?;
    assert_eq!(rt; first.drain(&rt, rt.alloc())?, 0);
    assert_eq!(rt; second.drain(&rt, rt.alloc())?, 4);
    Ok(())
}

#[test]
fn a_drain_leaves_what_the_caller_holds(rt: HostRuntime) -> Result<(), Fail> {
    let plan = Plan::new(1, 1_024).with_slabs(1).with_bucket(4);
    let pool = pool_of(rt.alloc(), plan)?;
    let mut local = pool.local(&rt, rt.alloc())?;
    let item = local.alloc(&rt, rt.alloc(), 0)?;
    assert_eq!(rt; local.drain(&rt, rt.alloc())?, 3);
    assert_eq!(rt; *item.body().data(), 7);
    local.free(&rt, rt.alloc(), item).map_err(|back| back.why)?;
    assert_eq!(rt; local.drain(&rt, rt.alloc())?, 1);
    Ok(())
}

#[test]
fn the_reserve_is_for_requests_that_may_use_it(rt: HostRuntime) -> Result<(), Fail> {
    let plan = Plan::new(1, 1_024)
        .with_slabs(1)
        .with_bucket(4)
        .with_reserve(1);
    let pool = pool_of(rt.alloc(), plan)?;
    let mut local = pool.local(&rt, rt.alloc())?;
    let mut held = Vec::new(rt.alloc());
    for _ in 0..3 {
        held.push(local.alloc(&rt, rt.alloc(), 0)?)?;
    }
    let refused = local.alloc(&rt, rt.alloc(), 0).map(|item| item.no()).err();
    assert_eq!(rt; refused, Some(Refused::Turned { refusal: Refusal::Reserved { free: 1, reserve: 1 } }));
    held.push(local.alloc_reserved(&rt, rt.alloc(), 0)?)?;
    let counts = local.ledger().counts;
    assert_eq!(rt; (counts.allocs, counts.fails), (4, 1));
    for item in held {
        local.free(&rt, rt.alloc(), item).map_err(|back| back.why)?;
    }
    assert_eq!(rt; local.drain(&rt, rt.alloc())?, 4);
    Ok(())
}

#[test]
fn a_free_in_another_domain_is_counted_as_cross(rt: HostRuntime) -> Result<(), Fail> {
    let plan = Plan::new(2, 1_024).with_slabs(2).with_bucket(4).with_domains(2);
    let pool = pool_of(rt.alloc(), plan)?;
    let mut first = pool.local_in(&rt, rt.alloc(), 0)?;
    let mut second = pool.local_in(&rt, rt.alloc(), 1)?;
    let item = first.alloc(&rt, rt.alloc(), 0)?;
    second.free(&rt, rt.alloc(), item).map_err(|back| back.why)?;
    assert_eq!(rt; (first.ledger().counts.cross, second.ledger().counts.cross), (0, 1));
    turn_over(&rt, rt.alloc(), &mut second)?;
    assert_eq!(rt; second.ledger().counts.cross, 1);
    Ok(())
}
