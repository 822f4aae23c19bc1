use super::jobs::{Job, Task, all_run};
use super::setting::{PLAIN, new_clock, out, zone};
use super::stopped::Stopped;
use super::worker::{Worker, new_workers};
use crate::ZoneSet;
use std::alloc::Global;
use std::sync::{Mutex, Wait};
use std::test::Fail;
use zone_stats::SeatLedger;

/// How many items each worker allocates and frees.
const TURNS: u32 = 1_000;

/// Allocates an item and frees it, so many times. Whether the counts add up in the end.
pub(super) fn churn<R: Wait>(rt: &R, alloc: Global, mut worker: Worker<'_>) -> Result<bool, Stopped> {
    for _ in 0..TURNS {
        turn(rt, alloc, &mut worker)?;
    }
    Ok(adds_up(worker.seat.ledger()))
}

/// Allocates an item, and frees it where there was one.
fn turn<R: Wait>(rt: &R, alloc: Global, worker: &mut Worker<'_>) -> Result<(), Stopped> {
    if worker.request_many(rt, alloc, 1)? == 1 {
        return Ok(());
    }
    worker.release(rt, alloc)
}

/// Whether a worker's requests add up, and each item that it got is free again.
fn adds_up(ledger: SeatLedger) -> bool {
    ledger.requests == u64::from(TURNS)
        && ledger.allocs == ledger.frees
        && ledger.fails == ledger.turned
        && ledger.cross == 0
}

#[test]
fn four_threads_free_all_that_they_allocate(rt: HostRuntime) -> Result<(), Fail> {
    let (clock, passes) = new_clock(rt.alloc(), 4, 64)?;
    let set = ZoneSet { limit: 64, ..PLAIN };
    let zone = zone(rt.alloc(), &clock, 256, set)?;
    // No churning worker looks at what is shown.
    let shown = Mutex::new(None);
    let mut workers = new_workers(&rt, rt.alloc(), &zone, &clock, passes, 4)?;
    let mut jobs = Vec::new(rt.alloc());
    for _ in 0..4 {
        let Some(worker) = workers.pop() else {
            panic!(rt; "too few workers")
        };
        jobs.push(Job {
            worker,
            shown: &shown,
            task: Task::Churn,
        })?;
    }
    assert!(rt; all_run(&rt, rt.alloc(), jobs)?);
    assert!(rt; out(&rt, rt.alloc(), &zone)? <= 64);
    Ok(())
}
