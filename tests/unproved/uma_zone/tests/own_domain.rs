use super::setting::{PLAIN, new_clock, take_pass, zone};
use super::worker::{new_worker, new_worker_in};
use crate::ZoneSet;
use std::test::Fail;
use uma_keg::KegCounts;

const TWO: ZoneSet = ZoneSet {
    domains: 2,
    ..PLAIN
};

/// Two slabs of four items, none of which is free.
const BOTH_OUT: KegCounts = KegCounts {
    slabs: 2,
    cap: 4,
    made: 2,
    free: 0,
    per_slab: 4,
    reserve: 0,
};

#[test]
fn a_request_takes_no_plain_bucket_of_the_first_domain(rt: HostRuntime) -> Result<(), Fail> {
    let (clock, mut passes) = new_clock(rt.alloc(), 2, 8)?;
    let zone = zone(rt.alloc(), &clock, 1024, TWO)?;
    let pass = take_pass(&clock, &mut passes)?;
    let mut first = new_worker(&rt, rt.alloc(), &zone, &clock, pass)?;
    let pass = take_pass(&clock, &mut passes)?;
    let mut second = new_worker_in(&rt, rt.alloc(), &zone, &clock, pass, 1)?;
    first.request_many(&rt, rt.alloc(), 4)?;
    first.release_many(&rt, rt.alloc(), 4)?;
    first.make_room(&rt, rt.alloc())?;
    // What went to the inbox is listed by a settle.
    assert_eq!(rt; zone.domain(0).count(&rt), 0);
    zone.domain(0).settle(&rt)?;
    assert_eq!(rt; zone.domain(0).count(&rt), 4);
    // The second domain lists nothing, so its seat fetches, out of a slab of its own.
    assert_eq!(rt; second.request_many(&rt, rt.alloc(), 1)?, 0);
    assert_eq!(rt; second.held.last().map(|live| live.domain()), Some(1));
    assert_eq!(rt; zone.counts(&rt), BOTH_OUT);
    let ledger = second.seat.ledger();
    assert!(rt; ledger.requests == 1 && ledger.allocs == 1 && ledger.fails == 0);
    assert!(rt; zone.domain(0).count(&rt) == 4 && zone.domain(1).count(&rt) == 0);
    // The first domain's is there for its own seat.
    assert_eq!(rt; first.request_many(&rt, rt.alloc(), 1)?, 0);
    assert_eq!(rt; first.held.last().map(|live| live.domain()), Some(0));
    assert_eq!(rt; zone.counts(&rt), BOTH_OUT);
    assert_eq!(rt; zone.domain(0).count(&rt), 0);
    // None of the items that are freed is of another domain than its seat.
    first.release(&rt, rt.alloc())?;
    second.release(&rt, rt.alloc())?;
    assert!(rt; first.seat.ledger().cross == 0 && second.seat.ledger().cross == 0);
    Ok(())
}

#[test]
fn a_request_takes_no_ripe_bucket_of_the_first_domain(rt: HostRuntime) -> Result<(), Fail> {
    let (clock, mut passes) = new_clock(rt.alloc(), 2, 8)?;
    let zone = zone(rt.alloc(), &clock, 1024, ZoneSet { smr: true, ..TWO })?;
    let pass = take_pass(&clock, &mut passes)?;
    let mut first = new_worker(&rt, rt.alloc(), &zone, &clock, pass)?;
    let pass = take_pass(&clock, &mut passes)?;
    let mut second = new_worker_in(&rt, rt.alloc(), &zone, &clock, pass, 1)?;
    first.request_many(&rt, rt.alloc(), 4)?;
    first.release_many(&rt, rt.alloc(), 4)?;
    first.make_room(&rt, rt.alloc())?;
    assert_eq!(rt; second.request_many(&rt, rt.alloc(), 1)?, 0);
    assert_eq!(rt; second.held.last().map(|live| live.domain()), Some(1));
    assert_eq!(rt; zone.counts(&rt), BOTH_OUT);
    let ledger = second.seat.ledger();
    assert!(rt; ledger.requests == 1 && ledger.allocs == 1 && ledger.fails == 0);
    assert_eq!(rt; zone.sums(&rt)?.deferred, 4);
    assert_eq!(rt; zone.domain(0).count(&rt), 4);
    // No section is open, so the first domain's four pass their destructors where its own seat looks.
    assert_eq!(rt; first.request_many(&rt, rt.alloc(), 1)?, 0);
    assert_eq!(rt; first.held.last().map(|live| live.domain()), Some(0));
    assert_eq!(rt; zone.counts(&rt), BOTH_OUT);
    assert!(rt; zone.domain(0).count(&rt) == 0 && zone.sums(&rt)?.deferred == 0);
    first.release(&rt, rt.alloc())?;
    second.release(&rt, rt.alloc())?;
    assert!(rt; first.seat.ledger().cross == 0 && second.seat.ledger().cross == 0);
    Ok(())
}
