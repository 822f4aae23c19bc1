use super::setting::{PLAIN, census, keg, new_clock, take_pass, zone};
use super::worker::new_worker;
use std::test::Fail;
use uma_zone::ZoneSet;

const NODES: ZoneSet = ZoneSet { smr: true, ..PLAIN };

#[test]
fn what_a_section_may_see_stays(rt: HostRuntime) -> Result<(), Fail> {
    let (clock, mut passes) = new_clock(rt.alloc(), 2, 8)?;
    let zone = zone(rt.alloc(), &clock, 512, NODES)?;
    let pass = take_pass(&clock, &mut passes)?;
    let mut reader = new_worker(&rt, rt.alloc(), &zone, &clock, pass)?;
    let pass = take_pass(&clock, &mut passes)?;
    let mut one = new_worker(&rt, rt.alloc(), &zone, &clock, pass)?;
    one.request_many(&rt, rt.alloc(), 5)?;
    reader.enter()?;
    one.release_many(&rt, rt.alloc(), 5)?;
    // Four are sealed, one waits on the seat.
    assert_eq!(rt; one.drain(&rt, rt.alloc())?, (0, 0));
    assert!(rt; one.deferred(&rt)? == (4, 1) && keg(&rt, &zone) == (1, 0));
    assert_eq!(rt; one.drain_seat(&rt, rt.alloc())?, (3, 0));
    assert!(rt; one.deferred(&rt)? == (4, 1) && keg(&rt, &zone) == (1, 3));
    reader.exit()?;
    assert_eq!(rt; one.drain(&rt, rt.alloc())?, (4, 0));
    assert!(rt; one.deferred(&rt)? == (0, 1) && keg(&rt, &zone) == (1, 7));
    // What is deferred on the seat stays there.
    assert_eq!(rt; one.drain_seat(&rt, rt.alloc())?, (0, 0));
    assert_eq!(rt; one.found(&rt)?, (0, 1));
    assert_eq!(rt; census(&rt, rt.alloc(), &zone)?.0, 1);
    Ok(())
}

#[test]
fn a_loose_bucket_stays(rt: HostRuntime) -> Result<(), Fail> {
    let (clock, mut passes) = new_clock(rt.alloc(), 2, 4)?;
    let zone = zone(rt.alloc(), &clock, 512, NODES)?;
    let pass = take_pass(&clock, &mut passes)?;
    let mut reader = new_worker(&rt, rt.alloc(), &zone, &clock, pass)?;
    let pass = take_pass(&clock, &mut passes)?;
    let mut one = new_worker(&rt, rt.alloc(), &zone, &clock, pass)?;
    one.request_many(&rt, rt.alloc(), 12)?;
    reader.enter()?;
    // The window is used up by the first two full buckets, so the third stays loose.
    one.release_many(&rt, rt.alloc(), 12)?;
    assert_eq!(rt; one.trim(&rt, rt.alloc())?, (0, 0));
    assert_eq!(rt; one.drain(&rt, rt.alloc())?, (0, 0));
    reader.exit()?;
    assert_eq!(rt; one.drain(&rt, rt.alloc())?, (8, 1));
    assert!(rt; one.deferred(&rt)? == (4, 0) && keg(&rt, &zone) == (1, 4));
    // By now there is room in the window.
    assert_eq!(rt; one.drain(&rt, rt.alloc())?, (4, 1));
    assert!(rt; one.deferred(&rt)? == (0, 0) && keg(&rt, &zone) == (0, 0));
    Ok(())
}

#[test]
fn a_trim_behind_a_drain_keeps_what_was_used_before_it(rt: HostRuntime) -> Result<(), Fail> {
    let (clock, mut passes) = new_clock(rt.alloc(), 2, 8)?;
    let zone = zone(rt.alloc(), &clock, 512, NODES)?;
    let pass = take_pass(&clock, &mut passes)?;
    let mut reader = new_worker(&rt, rt.alloc(), &zone, &clock, pass)?;
    let pass = take_pass(&clock, &mut passes)?;
    let mut one = new_worker(&rt, rt.alloc(), &zone, &clock, pass)?;
    one.request_many(&rt, rt.alloc(), 4)?;
    reader.enter()?;
    one.release_many(&rt, rt.alloc(), 4)?;
    // A reader may see the four, so the drain leaves them. It begins no interval.
    assert_eq!(rt; one.drain(&rt, rt.alloc())?, (0, 0));
    reader.exit()?;
    // All four were in use since the beginning, and none was since the first trim.
    assert_eq!(rt; one.trim(&rt, rt.alloc())?, (0, 0));
    assert_eq!(rt; one.deferred(&rt)?, (4, 0));
    assert_eq!(rt; one.trim(&rt, rt.alloc())?, (4, 0));
    assert_eq!(rt; (one.deferred(&rt)?, keg(&rt, &zone)), ((0, 0), (1, 8)));
    Ok(())
}

#[test]
fn a_trim_polls_what_was_not_used(rt: HostRuntime) -> Result<(), Fail> {
    let (clock, mut passes) = new_clock(rt.alloc(), 2, 8)?;
    let zone = zone(rt.alloc(), &clock, 512, NODES)?;
    let pass = take_pass(&clock, &mut passes)?;
    let mut reader = new_worker(&rt, rt.alloc(), &zone, &clock, pass)?;
    let pass = take_pass(&clock, &mut passes)?;
    let mut one = new_worker(&rt, rt.alloc(), &zone, &clock, pass)?;
    one.request_many(&rt, rt.alloc(), 8)?;
    reader.enter()?;
    one.release_many(&rt, rt.alloc(), 8)?;
    assert_eq!(rt; one.trim(&rt, rt.alloc())?, (0, 0));
    // A trim that gives nothing back since a reader may see it begins a new interval as well.
    assert_eq!(rt; one.trim(&rt, rt.alloc())?, (0, 0));
    reader.exit()?;
    assert_eq!(rt; one.trim(&rt, rt.alloc())?, (8, 0));
    assert_eq!(rt; keg(&rt, &zone), (1, 8));
    Ok(())
}
