use super::setting::{PLAIN, one_pass, out, zone};
use super::worker::new_worker;
use crate::ZoneSet;
use std::test::Fail;

const NODES: ZoneSet = ZoneSet { smr: true, ..PLAIN };

#[test]
fn what_a_section_may_see_is_not_handed_out(rt: HostRuntime) -> Result<(), Fail> {
    let (clock, pass) = one_pass(rt.alloc(), 8)?;
    let zone = zone(rt.alloc(), &clock, 512, NODES)?;
    let mut one = new_worker(&rt, rt.alloc(), &zone, &clock, pass)?;
    one.enter()?;
    assert_eq!(rt; one.request_many(&rt, rt.alloc(), 5)?, 0);
    one.release_many(&rt, rt.alloc(), 5)?;
    assert_eq!(rt; one.request_many(&rt, rt.alloc(), 4)?, 0);
    assert!(rt; zone.counts(&rt).slabs == 2 && zone.counts(&rt).free == 4);
    assert_eq!(rt; zone.sums(&rt)?.deferred, 4);
    assert!(rt; one.hands() == (1, 3));

    // Once the section is closed the four that it might have seen come first.
    one.exit()?;
    assert_eq!(rt; one.request_many(&rt, rt.alloc(), 4)?, 0);
    assert!(rt; zone.counts(&rt).slabs == 2 && zone.counts(&rt).free == 4);
    assert!(rt; zone.sums(&rt)?.deferred == 0 && one.seat.sums().deferred == 1);
    assert!(rt; one.hands() == (3, 3));
    assert_eq!(rt; out(&rt, rt.alloc(), &zone)?, 12);
    Ok(())
}

#[test]
fn a_bucket_past_the_window_stays_loose(rt: HostRuntime) -> Result<(), Fail> {
    let (clock, pass) = one_pass(rt.alloc(), 4)?;
    let zone = zone(rt.alloc(), &clock, 512, NODES)?;
    let mut one = new_worker(&rt, rt.alloc(), &zone, &clock, pass)?;
    one.enter()?;
    assert_eq!(rt; one.request_many(&rt, rt.alloc(), 12)?, 0);
    one.release_many(&rt, rt.alloc(), 12)?;
    one.exit()?;
    assert_eq!(rt; one.request_many(&rt, rt.alloc(), 1)?, 0);
    assert_eq!(rt; zone.sums(&rt)?.deferred, 8);
    assert!(rt; one.hands() == (5, 5));
    assert_eq!(rt; zone.counts(&rt).free, 4);
    Ok(())
}
