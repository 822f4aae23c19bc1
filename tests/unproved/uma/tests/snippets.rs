// Each call of the public API in use. docs/uma.md and docs/smr.md show the lines from `// snippet: CALL, ..` to `// end`
// at these calls.
use crate::{DataPool, Directory, Filled, Item, NamePlan, Plan, Pool, Refused, Table, TrailHooks};
use name_cache::NameCache;
use name_rows::{find, make};
use smr_clock::{Bare, Clock};
use std::sync::atomic::{AtomicU64, Ordering};
use std::test::Fail;
use uma_reclaim::trim;
use uma_zone::{AllocAsk, Zone, ZoneSet};

type NumberZone = Zone<Item<u64>, TrailHooks<Filled<u64>>, Bare>;

/// The word of a place that names nothing.
const NOTHING: u64 = u64::MAX;

#[test]
fn a_plan_has_the_numbers_of_a_pool(rt: HostRuntime) -> Result<(), Fail> {
    // snippet: Plan::new
    // Four workers, and items of 128 bytes.
    let plan = Plan::new(4, 128);
    // end
    assert_eq!(rt; (plan.slabs, plan.bucket, plan.domains), (64, 16, 1));
    // snippet: Plan::with_slabs
    // 16 slabs of 32 items each: at most 512 items.
    let plan = Plan::new(4, 128).with_slabs(16);
    // end
    assert_eq!(rt; plan.slabs, 16);
    // snippet: Plan::with_bucket
    let plan = Plan::new(4, 128).with_bucket(8);
    // end
    assert_eq!(rt; plan.bucket, 8);
    // snippet: Plan::with_limit
    let plan = Plan::new(4, 128).with_limit(200);
    // end
    assert_eq!(rt; plan.limit, 200);
    // snippet: Plan::with_reserve
    let plan = Plan::new(4, 128).with_reserve(2);
    // end
    assert_eq!(rt; plan.reserve, 2);
    // snippet: Plan::with_domains
    let plan = Plan::new(4, 128).with_domains(2);
    // end
    assert_eq!(rt; plan.domains, 2);
    // snippet: Plan::with_readers
    let plan = Plan::new(4, 128).with_readers();
    // end
    assert_eq!(rt; plan.smr, true);
    Ok(())
}

#[test]
fn a_pool_gives_what_its_workers_need(rt: HostRuntime) -> Result<(), Fail> {
    let alloc = rt.alloc();
    // snippet: Pool::over
    // The items may enter secondary zones.
    let plan = Plan::new(4, 128);
    let filled = Filled { value: 7u64 };
    let hooks = TrailHooks::with_stays(filled);
    let slab_hooks = TrailHooks::with_stays(filled);
    let pool: DataPool<u64, Filled<u64>> = Pool::over(alloc, plan, hooks, slab_hooks)?;
    // end
    assert_eq!(rt; pool.plan(), plan);
    // snippet: Pool::new
    let plan = Plan::new(4, 128).with_domains(2).with_readers();
    let pool = Pool::new(alloc, plan, Filled { value: 7u64 })?;
    // end
    // snippet: Pool::plan
    let workers = pool.plan().workers;
    // end
    assert_eq!(rt; workers, 4);
    // snippet: Pool::local
    let mut local = pool.local(&rt, alloc)?;
    // end
    // snippet: Pool::local_in
    let mut other = pool.local_in(&rt, alloc, 1)?;
    // end
    // snippet: Pool::reader
    let reader = pool.reader(&rt)?;
    // end
    drop(reader);
    let item = local.alloc(&rt, alloc, 0)?;
    other.free(&rt, alloc, item).map_err(|back| back.why)?;
    // snippet: Pool::stats
    let line = pool.stats(&rt, alloc, b"numbers", &[local.ledger(), other.ledger()])?;
    // end
    drop(line);
    Ok(())
}

#[test]
fn a_local_allocates_and_frees(rt: HostRuntime) -> Result<(), Fail> {
    let alloc = rt.alloc();
    let plan = Plan::new(1, 1_024).with_slabs(1).with_bucket(4).with_reserve(1);
    let pool = Pool::new(alloc, plan, Filled { value: 7u64 })?;
    let mut local = pool.local(&rt, alloc)?;
    // snippet: Local::alloc
    let item = local.alloc(&rt, alloc, 0)?;
    let data = *item.body().data();
    // end
    assert_eq!(rt; data, 7);
    let second = local.alloc(&rt, alloc, 0)?;
    let third = local.alloc(&rt, alloc, 0)?;
    // snippet: Local::alloc_reserved
    let last = match local.alloc(&rt, alloc, 0) {
        Err(Refused::Turned { .. }) => local.alloc_reserved(&rt, alloc, 0)?,
        other => other?,
    };
    // end
    // snippet: Local::free
    // Where a free fails, `back.item` is the item, and `back.why` the reason.
    local.free(&rt, alloc, item).map_err(|back| back.why)?;
    // end
    local.free(&rt, alloc, second).map_err(|back| back.why)?;
    local.free(&rt, alloc, third).map_err(|back| back.why)?;
    // snippet: Local::make_ready, Local::put
    local.make_ready(&rt, alloc)?;
    local.put(last);
    // end
    // snippet: Local::pool
    let workers = local.pool().plan().workers;
    // end
    assert_eq!(rt; workers, 1);
    // snippet: Local::ledger
    let counts = local.ledger().counts;
    let in_use = counts.allocs - counts.frees;
    // end
    assert_eq!(rt; (in_use, counts.fails), (0, 1));
    // snippet: Local::stats
    let line = local.stats(&rt, alloc, b"numbers")?;
    // end
    // snippet: Table::new
    let table = Table::new(alloc, vec![in alloc; line]?)?;
    // end
    drop(table);
    // snippet: Local::drain
    let items = local.drain(&rt, alloc)?;
    // end
    assert_eq!(rt; items, 4);
    Ok(())
}

#[test]
fn readers_look_in_sections(rt: HostRuntime) -> Result<(), Fail> {
    let alloc = rt.alloc();
    let pool = Pool::new(alloc, Plan::new(2, 128).with_readers(), Filled { value: 7u64 })?;
    let mut local = pool.local(&rt, alloc)?;
    let mut reader = pool.reader(&rt)?;
    let item = local.alloc(&rt, alloc, 0)?;
    let place = AtomicU64::new(u64::from(item.no()));
    // snippet: Local::read
    let found = local.read(|| place.load(Ordering::SeqCst))?;
    // end
    assert_eq!(rt; found, u64::from(item.no()));
    // snippet: Reader::read
    let section = reader.read()?;
    let found = place.load(Ordering::SeqCst);
    // The item of this number isn't handed out again before the drop.
    drop(section);
    // end
    assert_eq!(rt; found, u64::from(item.no()));
    place.store(NOTHING, Ordering::SeqCst);
    local.free(&rt, alloc, item).map_err(|back| back.why)?;
    Ok(())
}

#[test]
fn a_directory_binds_names(rt: HostRuntime) -> Result<(), Fail> {
    let alloc = rt.alloc();
    // snippet: NamePlan::new
    // Two workers, and 64 rows.
    let plan = NamePlan::new(2, 64);
    // end
    assert_eq!(rt; (plan.slabs, plan.bucket), (64, 16));
    // snippet: NamePlan::with_slabs
    // Four slabs of 64 entries.
    let plan = NamePlan::new(2, 64).with_slabs(4);
    // end
    assert_eq!(rt; plan.slabs, 4);
    // snippet: NamePlan::with_bucket
    let plan = NamePlan::new(2, 64).with_bucket(8);
    // end
    assert_eq!(rt; plan.bucket, 8);
    // snippet: Directory::new
    let directory = Directory::new(alloc, NamePlan::new(2, 64))?;
    // end
    // snippet: Directory::plan
    let rows = directory.plan().rows;
    // end
    assert_eq!(rt; rows, 64);
    // snippet: Directory::local
    let mut local = directory.local(&rt, alloc)?;
    // end
    // snippet: DirectoryLocal::bind
    local.bind(&rt, alloc, 42, 7)?;
    // end
    // snippet: DirectoryLocal::look
    let value = local.look(42)?;
    // end
    assert_eq!(rt; value, Some(7));
    // snippet: DirectoryLocal::unbind
    let was = local.unbind(&rt, alloc, 42)?;
    // end
    assert_eq!(rt; was, Some(7));
    // snippet: DirectoryLocal::ledger
    let binds = local.ledger().counts.allocs;
    // end
    assert_eq!(rt; binds, 1);
    // snippet: Directory::stats
    let line = directory.stats(&rt, alloc, b"names", &[local.ledger()])?;
    // end
    drop(line);
    Ok(())
}

#[test]
fn a_zone_allocates_frees_and_is_trimmed(rt: HostRuntime) -> Result<(), Fail> {
    let alloc = rt.alloc();
    let (clock, mut passes) = Clock::<Bare>::new(alloc, 1, 1, 1_024)?;
    let Some(mut pass) = passes.pop() else {
        return Err(Fail::new("no pass"));
    };
    // snippet: Zone::primary
    let set = ZoneSet {
        slabs: 4,
        bucket: 8,
        limit: 0,
        reserve: 0,
        domains: 1,
        smr: false,
    };
    let filled = Filled { value: 7u64 };
    let hooks = TrailHooks::new(filled);
    let keg_hooks = TrailHooks::new(filled);
    let zone: Zone<Item<u64>, TrailHooks<Filled<u64>>, Bare> =
        Zone::primary(alloc, &clock, 128, set, hooks, keg_hooks)?;
    // end
    let mut seat = zone.seat(&rt, alloc, 0)?;
    // snippet: Zone::alloc
    let ask = AllocAsk { arg: 0, reserve: false };
    let item = zone.alloc(&rt, alloc, &clock, &mut pass, &mut seat, ask)?;
    // end
    // snippet: Zone::free
    if seat.spare() == 0 {
        zone.make_room(&rt, alloc, &clock, &mut pass, &mut seat)?;
    }
    zone.free(&mut seat, item);
    // end
    // snippet: trim
    let trimmed = trim(&rt, alloc, &zone, &clock, &mut pass, &mut seat)?;
    let items = trimmed.items;
    // end
    assert_eq!(rt; items, 0);
    let set = ZoneSet { smr: true, ..set };
    let hooks = TrailHooks::new(filled);
    let keg_hooks = TrailHooks::new(filled);
    let smr: NumberZone = Zone::primary(alloc, &clock, 128, set, hooks, keg_hooks)?;
    let mut seat = smr.seat(&rt, alloc, 0)?;
    let item = smr.alloc(&rt, alloc, &clock, &mut pass, &mut seat, ask)?;
    let place = AtomicU64::new(u64::from(item.no()));
    // snippet: Zone::free_smr
    // Unlink the item first, so that no section which begins now finds it.
    place.store(NOTHING, Ordering::SeqCst);
    smr.free_smr(&clock, &mut pass, &mut seat, item);
    // end
    Ok(())
}

#[test]
fn a_clock_tells_when_a_goal_has_expired(rt: HostRuntime) -> Result<(), Fail> {
    let alloc = rt.alloc();
    // snippet: Clock::new
    // Two seats. Both hands begin at 1, and the write hand may lead by 1,024.
    let (clock, mut passes) = Clock::<Bare>::new(alloc, 2, 1, 1_024)?;
    // end
    let (Some(mut writer), Some(mut reader)) = (passes.pop(), passes.pop()) else {
        return Err(Fail::new("no pass"));
    };
    let place = AtomicU64::new(5);
    // snippet: Clock::enter, Clock::exit
    clock.enter(&mut reader)?;
    let found = place.load(Ordering::SeqCst);
    // What was found may be read until the exit.
    clock.exit(&mut reader);
    // end
    assert_eq!(rt; found, 5);
    // snippet: Clock::advance, Clock::poll
    place.store(NOTHING, Ordering::SeqCst);
    let goal = clock.advance(&mut writer)?;
    let mut note = clock.note(&mut writer);
    let expired = clock.poll(&mut note, &goal);
    // end
    assert_eq!(rt; expired, true);
    Ok(())
}

#[test]
fn a_cache_binds_names(rt: HostRuntime) -> Result<(), Fail> {
    let alloc = rt.alloc();
    let set = ZoneSet {
        slabs: 1,
        bucket: 4,
        limit: 0,
        reserve: 0,
        domains: 1,
        smr: true,
    };
    let opened = make(alloc, 1, 1, 1_024, 16, 64, 0)?;
    let (cache, clock, mut passes) = NameCache::new(alloc, opened, set)?;
    let Some(mut pass) = passes.pop() else {
        return Err(Fail::new("no pass"));
    };
    let mut seat = cache.seat(&rt, alloc, 0)?;
    // snippet: NameCache::bind
    let receipt = cache.bind(&rt, alloc, &clock, &mut pass, &mut seat, 42, 7)?;
    // end
    drop(receipt);
    // snippet: NameCache::look
    let value = cache.look(&clock, &mut pass, 42)?;
    // end
    assert_eq!(rt; value, Some(7));
    // snippet: find
    clock.enter(&mut pass)?;
    let value = find(&clock, &mut pass, 42);
    clock.exit(&mut pass);
    // end
    assert_eq!(rt; value, Some(7));
    // snippet: NameCache::unbind
    let taken = cache.unbind(&rt, alloc, &clock, &mut pass, &mut seat, 42)?;
    let value = taken.map(|(value, _)| value);
    // end
    assert_eq!(rt; value, Some(7));
    Ok(())
}
