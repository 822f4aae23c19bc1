use super::jobs::{Job, Task, all_run};
use super::setting::{PLAIN, new_clock, one_pass, out, take_pass, zone};
use super::stopped::Stopped;
use super::worker::{Worker, new_worker, new_workers};
use crate::{AllocAsk, ZoneSet};
use std::sync::{Mutex, Wait};
use std::test::Fail;
use zone_stats::{Refusal, SeatLedger};

const ASK: AllocAsk = AllocAsk {
    arg: 0,
    reserve: false,
};

/// How often a thread sets the limit, and the greatest one that it sets.
const SETS: u64 = 2_000;
const MOST: u64 = 64;

fn at_limit(out: u64, limit: u64) -> Option<Refusal> {
    Some(Refusal::AtLimit { out, limit })
}

/// A limit of 8 is lowered to 2, raised to 6, taken away, and set to 8 again. Each seat fetches four items at a time.
#[test]
fn a_lowered_limit_takes_nothing_away(rt: HostRuntime) -> Result<(), Fail> {
    let (clock, mut passes) = new_clock(rt.alloc(), 2, 8)?;
    let zone = zone(rt.alloc(), &clock, 256, ZoneSet { limit: 8, ..PLAIN })?;
    let pass = take_pass(&clock, &mut passes)?;
    let mut one = new_worker(&rt, rt.alloc(), &zone, &clock, pass)?;
    let pass = take_pass(&clock, &mut passes)?;
    let mut two = new_worker(&rt, rt.alloc(), &zone, &clock, pass)?;
    assert_eq!(rt; one.request_many(&rt, rt.alloc(), 1)?, 0);
    assert_eq!(rt; two.request_many(&rt, rt.alloc(), 1)?, 0);
    assert_eq!(rt; out(&rt, rt.alloc(), &zone)?, 8);

    // The three that each seat has cached are handed out still.
    assert_eq!(rt; zone.set_max(&rt, 2), 8);
    assert_eq!(rt; one.request_many(&rt, rt.alloc(), 3)?, 0);
    assert_eq!(rt; two.request_many(&rt, rt.alloc(), 3)?, 0);
    assert_eq!(rt; one.request(&rt, rt.alloc(), ASK)?, at_limit(8, 2));
    one.release(&rt, rt.alloc())?;
    assert_eq!(rt; one.request(&rt, rt.alloc(), ASK)?, None);
    two.release_many(&rt, rt.alloc(), 3)?;
    assert_eq!(rt; one.request(&rt, rt.alloc(), ASK)?, at_limit(8, 2));
    assert_eq!(rt; two.give_usable(&rt), 3);
    assert_eq!(rt; one.request(&rt, rt.alloc(), ASK)?, at_limit(5, 2));
    assert_eq!(rt; one.seat.ledger().last, at_limit(5, 2));

    // One item is within the limit, so the fetch brings just this.
    assert_eq!(rt; zone.set_max(&rt, 6), 2);
    assert_eq!(rt; one.request(&rt, rt.alloc(), ASK)?, None);
    assert_eq!(rt; one.request(&rt, rt.alloc(), ASK)?, at_limit(6, 6));

    assert_eq!(rt; zone.set_max(&rt, 0), 6);
    assert_eq!(rt; one.request(&rt, rt.alloc(), ASK)?, None);
    assert_eq!(rt; out(&rt, rt.alloc(), &zone)?, 10);
    assert_eq!(rt; zone.set_max(&rt, 8), 0);
    assert_eq!(rt; one.request_many(&rt, rt.alloc(), 3)?, 0);
    assert_eq!(rt; one.request(&rt, rt.alloc(), ASK)?, at_limit(10, 8));
    assert_eq!(rt; zone.set_max(&rt, 8), 8);
    assert!(rt; zone.counts(&rt).slabs == 1 && zone.counts(&rt).free == 6);
    let ledger = one.seat.ledger();
    assert!(rt; ledger.allocs == 10 && ledger.fails == 5 && ledger.turned == 5);
    Ok(())
}

/// A new limit gives up no slab and brings none in, and the former one is returned each time.
#[test]
fn a_new_limit_leaves_the_slabs(rt: HostRuntime) -> Result<(), Fail> {
    let (clock, pass) = one_pass(rt.alloc(), 8)?;
    let zone = zone(rt.alloc(), &clock, 1024, ZoneSet { limit: 8, ..PLAIN })?;
    let mut one = new_worker(&rt, rt.alloc(), &zone, &clock, pass)?;
    assert_eq!(rt; zone.prealloc(&rt, rt.alloc(), 12, 0)?, 3);
    let all_free = zone.counts(&rt);
    assert!(rt; all_free.slabs == 3 && all_free.free == 12);
    assert_eq!(rt; zone.set_max(&rt, 2), 8);
    assert_eq!(rt; zone.counts(&rt), all_free);
    assert_eq!(rt; zone.set_max(&rt, 5), 2);
    assert_eq!(rt; zone.counts(&rt), all_free);
    // One slab is used, and two are wholly free.
    assert_eq!(rt; one.request_many(&rt, rt.alloc(), 4)?, 0);
    let used = zone.counts(&rt);
    assert!(rt; used.slabs == 3 && used.free == 8);
    assert_eq!(rt; zone.set_max(&rt, 0), 5);
    assert_eq!(rt; zone.counts(&rt), used);
    Ok(())
}

/// Deferred items count against the limit, and come back past a lowered one.
#[test]
fn deferred_items_come_back_past_a_lowered_limit(rt: HostRuntime) -> Result<(), Fail> {
    let (clock, pass) = one_pass(rt.alloc(), 8)?;
    let set = ZoneSet {
        limit: 8,
        smr: true,
        ..PLAIN
    };
    let zone = zone(rt.alloc(), &clock, 512, set)?;
    let mut one = new_worker(&rt, rt.alloc(), &zone, &clock, pass)?;
    one.enter()?;
    assert_eq!(rt; one.request_many(&rt, rt.alloc(), 5)?, 0);
    one.release_many(&rt, rt.alloc(), 5)?;
    assert_eq!(rt; zone.set_max(&rt, 2), 8);
    assert_eq!(rt; one.request_many(&rt, rt.alloc(), 3)?, 0);
    assert_eq!(rt; one.request(&rt, rt.alloc(), ASK)?, at_limit(8, 2));
    one.exit()?;
    assert_eq!(rt; one.request_many(&rt, rt.alloc(), 4)?, 0);
    assert_eq!(rt; one.request(&rt, rt.alloc(), ASK)?, at_limit(8, 2));
    assert_eq!(rt; zone.set_max(&rt, 0), 2);
    assert_eq!(rt; one.request(&rt, rt.alloc(), ASK)?, None);
    assert_eq!(rt; out(&rt, rt.alloc(), &zone)?, 12);
    Ok(())
}

/// Of a secondary zone its own limit is set, and not that of the primary.
#[test]
fn a_limit_is_set_for_one_zone_alone(rt: HostRuntime) -> Result<(), Fail> {
    let (clock, pass) = one_pass(rt.alloc(), 8)?;
    let mut base = zone(rt.alloc(), &clock, 256, ZoneSet { limit: 3, ..PLAIN })?;
    let set = crate::SecondSet {
        bucket: 4,
        limit: 5,
        smr: false,
    };
    let other = super::setting::second(&rt, rt.alloc(), &mut base, set)?;
    assert_eq!(rt; other.set_max(&rt, 1), 5);
    assert_eq!(rt; base.set_max(&rt, 4), 3);
    assert_eq!(rt; other.set_max(&rt, 1_000_000), 1);
    assert_eq!(rt; base.set_max(&rt, 0), 4);
    let mut one = new_worker(&rt, rt.alloc(), &other, &clock, pass)?;
    assert_eq!(rt; one.request_many(&rt, rt.alloc(), 8)?, 0);
    Ok(())
}

/// Sets the limit again and again, from 1 to the greatest.
pub(super) fn squeeze<R: Wait>(rt: &R, worker: &Worker<'_>) -> bool {
    for turn in 0..SETS {
        worker.set_max(rt, turn % MOST + 1);
    }
    true
}

/// Whether the last refusal, if there is one, names a limit that was set.
pub(super) fn names_a_limit(ledger: SeatLedger) -> bool {
    match ledger.last {
        Some(Refusal::AtLimit { out, limit }) => 1 <= limit && limit <= MOST && limit <= out,
        Some(_) => false,
        None => true,
    }
}

#[test]
fn a_limit_changes_under_four_threads(rt: HostRuntime) -> Result<(), Fail> {
    let (clock, passes) = new_clock(rt.alloc(), 5, 64)?;
    let set = ZoneSet {
        slabs: 8,
        limit: MOST,
        ..PLAIN
    };
    let zone = zone(rt.alloc(), &clock, 256, set)?;
    // No worker looks at what is shown.
    let shown = Mutex::new(None);
    let mut workers = new_workers(&rt, rt.alloc(), &zone, &clock, passes, 5)?;
    let mut jobs = Vec::new(rt.alloc());
    for task in [Task::Squeeze, Task::Hold, Task::Hold, Task::Hold, Task::Hold] {
        let Some(worker) = workers.pop() else {
            panic!(rt; "too few workers")
        };
        jobs.push(Job {
            worker,
            shown: &shown,
            task,
        })?;
    }
    assert!(rt; all_run(&rt, rt.alloc(), jobs)?);
    let counts = zone.counts(&rt);
    assert_eq!(rt; out(&rt, rt.alloc(), &zone)? + counts.free, u64::from(counts.slabs) * 16);
    Ok(())
}

/// Allocates up to twenty items, and frees each, so many times. Whether the counts add up, and each refusal names a limit
/// that was set.
pub(super) fn hold_many<R: Wait>(
    rt: &R,
    alloc: std::alloc::Global,
    worker: &mut Worker<'_>,
) -> Result<bool, Stopped> {
    let mut well = true;
    for _ in 0..100 {
        let refused = worker.request_many(rt, alloc, 20)?;
        well = well && names_a_limit(worker.seat.ledger());
        worker.release_many(rt, alloc, 20u32.saturating_sub(refused))?;
    }
    let ledger = worker.seat.ledger();
    Ok(well && ledger.requests == 2_000 && ledger.allocs == ledger.frees && ledger.fails == ledger.turned)
}
