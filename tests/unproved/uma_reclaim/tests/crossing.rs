use super::setting::{PLAIN, keg, listed, one_pass, zone};
use super::worker::new_worker;
use std::test::Fail;
use uma_zone::ZoneSet;

const TWO: ZoneSet = ZoneSet {
    domains: 2,
    ..PLAIN
};

#[test]
fn a_drained_seat_has_no_cross_item(rt: HostRuntime) -> Result<(), Fail> {
    let (clock, pass) = one_pass(rt.alloc(), 8)?;
    let zone = zone(rt.alloc(), &clock, 1024, TWO)?;
    let mut one = new_worker(&rt, rt.alloc(), &zone, &clock, pass)?;
    zone.prealloc(&rt, rt.alloc(), 4, 1)?;
    one.request_many(&rt, rt.alloc(), 3)?;
    one.release_many(&rt, rt.alloc(), 3)?;
    assert_eq!(rt; one.seat.ledger().cross, 3);
    assert_eq!(rt; one.drain(&rt, rt.alloc())?, (0, 0));
    assert_eq!(rt; one.found(&rt)?, (0, 4));
    assert_eq!(rt; one.drain_seat(&rt, rt.alloc())?, (4, 1));
    assert!(rt; one.found(&rt)? == (0, 0) && keg(&rt, &zone) == (0, 0));
    assert_eq!(rt; one.seat.ledger().cross, 3);
    Ok(())
}

#[test]
fn each_domain_is_drained(rt: HostRuntime) -> Result<(), Fail> {
    let (clock, pass) = one_pass(rt.alloc(), 8)?;
    let zone = zone(rt.alloc(), &clock, 1024, TWO)?;
    let mut one = new_worker(&rt, rt.alloc(), &zone, &clock, pass)?;
    zone.prealloc(&rt, rt.alloc(), 4, 1)?;
    one.request_many(&rt, rt.alloc(), 8)?;
    one.release_many(&rt, rt.alloc(), 8)?;
    assert_eq!(rt; one.drain(&rt, rt.alloc())?, (8, 2));
    assert!(rt; listed(&rt, &zone, 0) == 0 && listed(&rt, &zone, 1) == 0);
    assert_eq!(rt; keg(&rt, &zone), (0, 0));
    Ok(())
}

#[test]
fn each_domain_has_a_working_set_of_its_own(rt: HostRuntime) -> Result<(), Fail> {
    let (clock, pass) = one_pass(rt.alloc(), 8)?;
    let zone = zone(rt.alloc(), &clock, 1024, TWO)?;
    let mut one = new_worker(&rt, rt.alloc(), &zone, &clock, pass)?;
    zone.prealloc(&rt, rt.alloc(), 4, 1)?;
    one.request_many(&rt, rt.alloc(), 8)?;
    one.release_many(&rt, rt.alloc(), 8)?;
    assert_eq!(rt; one.trim(&rt, rt.alloc())?, (0, 0));
    // The four of the first domain are used again, those of the other one aren't.
    one.request_many(&rt, rt.alloc(), 4)?;
    one.release_many(&rt, rt.alloc(), 4)?;
    assert_eq!(rt; one.trim(&rt, rt.alloc())?, (4, 0));
    assert!(rt; listed(&rt, &zone, 0) == 4 && listed(&rt, &zone, 1) == 0);
    assert_eq!(rt; one.trim(&rt, rt.alloc())?, (4, 0));
    assert_eq!(rt; keg(&rt, &zone), (2, 8));
    Ok(())
}
