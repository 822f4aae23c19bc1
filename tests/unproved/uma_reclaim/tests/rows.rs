use super::setting::{PLAIN, census, keg, listed, new_clock, one_pass, second, take_pass, zone};
use super::worker::new_worker;
use std::test::Fail;
use uma_life::{Body, ZoneTally};
use uma_zone::{SecondSet, ZoneRefused, ZoneSet};

const SECOND: SecondSet = SecondSet {
    bucket: 4,
    limit: 0,
    smr: false,
};

#[test]
fn a_burst_comes_back(rt: HostRuntime) -> Result<(), Fail> {
    let (clock, pass) = one_pass(rt.alloc(), 8)?;
    let zone = zone(rt.alloc(), &clock, 256, PLAIN)?;
    let mut one = new_worker(&rt, rt.alloc(), &zone, &clock, pass)?;
    one.request_many(&rt, rt.alloc(), 12)?;
    one.release_many(&rt, rt.alloc(), 12)?;
    // All twelve were in use since the beginning, and none was since the first trim.
    assert_eq!(rt; one.trim(&rt, rt.alloc())?, (0, 0));
    assert!(rt; listed(&rt, &zone, 0) == 12 && keg(&rt, &zone) == (1, 4));
    assert_eq!(rt; one.trim(&rt, rt.alloc())?, (12, 0));
    assert!(rt; listed(&rt, &zone, 0) == 0 && keg(&rt, &zone) == (1, 16));
    assert_eq!(rt; one.drain(&rt, rt.alloc())?, (0, 1));
    assert_eq!(rt; keg(&rt, &zone), (0, 0));
    let (_, tally) = census(&rt, rt.alloc(), &zone)?;
    assert!(rt; tally.keg_inits == 16 && tally.keg_finis == 16);
    assert!(rt; tally.zones[0].ctors == 12 && tally.zones[0].dtors == 12);
    let ledger = one.seat.ledger();
    assert!(rt; ledger.requests == 12 && ledger.allocs == 12 && ledger.frees == 12);
    Ok(())
}

#[test]
fn a_keg_has_eight_zones_after_a_burst_too(rt: HostRuntime) -> Result<(), Fail> {
    let (clock, pass) = one_pass(rt.alloc(), 8)?;
    let mut base = zone(rt.alloc(), &clock, 256, PLAIN)?;
    {
        let mut one = new_worker(&rt, rt.alloc(), &base, &clock, pass)?;
        one.request_many(&rt, rt.alloc(), 12)?;
        one.release_many(&rt, rt.alloc(), 12)?;
    }
    let mut seconds = Vec::new(rt.alloc());
    for _ in 0..7 {
        seconds.push(second(&rt, rt.alloc(), &mut base, SECOND)?)?;
    }
    match second(&rt, rt.alloc(), &mut base, SECOND) {
        Ok(_) => panic!(rt; "a ninth zone"),
        Err(ZoneRefused::Memory) => Err(ZoneRefused::Memory)?,
        Err(refused) => assert_eq!(rt; refused, ZoneRefused::Zones { zones: 8 }),
    }
    Ok(())
}

#[test]
fn a_drained_seat_takes_its_items_through_zone_fini(rt: HostRuntime) -> Result<(), Fail> {
    let (clock, mut passes) = new_clock(rt.alloc(), 3, 8)?;
    let mut base = zone(rt.alloc(), &clock, 512, PLAIN)?;
    let first = second(&rt, rt.alloc(), &mut base, SECOND)?;
    let other = second(&rt, rt.alloc(), &mut base, SECOND)?;

    let pass = take_pass(&clock, &mut passes)?;
    let mut at_base = new_worker(&rt, rt.alloc(), &base, &clock, pass)?;
    assert_eq!(rt; at_base.request_many(&rt, rt.alloc(), 1)?, 0);
    let pass = take_pass(&clock, &mut passes)?;
    let mut at_first = new_worker(&rt, rt.alloc(), &first, &clock, pass)?;
    assert_eq!(rt; at_first.request_many(&rt, rt.alloc(), 1)?, 0);
    at_first.release(&rt, rt.alloc())?;
    assert_eq!(rt; at_first.drain_seat(&rt, rt.alloc())?, (4, 0));
    assert!(rt; keg(&rt, &base) == (1, 4) && at_first.found(&rt)? == (0, 0));
    let pass = take_pass(&clock, &mut passes)?;
    let mut at_other = new_worker(&rt, rt.alloc(), &other, &clock, pass)?;
    assert_eq!(rt; at_other.request_many(&rt, rt.alloc(), 1)?, 0);
    assert_eq!(rt; keg(&rt, &base), (1, 0));

    let Some(live) = at_other.held.last() else {
        panic!(rt; "nothing is held")
    };
    let tally = live.body().tally();
    let stayed = ZoneTally {
        inits: 1,
        ctors: 1,
        dtors: 1,
        finis: 1,
    };
    let stays = ZoneTally {
        inits: 1,
        ctors: 1,
        dtors: 0,
        finis: 0,
    };
    assert!(rt; live.no() == 7 && tally.keg_inits == 1);
    assert!(rt; tally.zones[1] == stayed && tally.zones[2] == stays);
    Ok(())
}

#[test]
fn a_drain_keeps_the_reserve(rt: HostRuntime) -> Result<(), Fail> {
    let (clock, pass) = one_pass(rt.alloc(), 8)?;
    let set = ZoneSet {
        reserve: 2,
        ..PLAIN
    };
    let zone = zone(rt.alloc(), &clock, 1024, set)?;
    let mut one = new_worker(&rt, rt.alloc(), &zone, &clock, pass)?;
    one.request_many(&rt, rt.alloc(), 6)?;
    assert_eq!(rt; keg(&rt, &zone), (2, 2));
    one.release_many(&rt, rt.alloc(), 6)?;
    // Four are in a full bucket, and two on the seat.
    assert_eq!(rt; one.drain(&rt, rt.alloc())?, (4, 1));
    assert_eq!(rt; keg(&rt, &zone), (1, 2));
    // The slab that is left is wholly free, and has the reserve.
    assert_eq!(rt; one.drain_seat(&rt, rt.alloc())?, (2, 0));
    assert_eq!(rt; keg(&rt, &zone), (1, 4));
    Ok(())
}
