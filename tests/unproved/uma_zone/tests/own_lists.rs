use super::seated_zone::SeatedZone;
use std::test::Fail;

#[test]
fn a_look_takes_no_plain_bucket_of_the_first_domain(rt: HostRuntime) -> Result<(), Fail> {
    let mut zone = SeatedZone::in_domain(&rt, rt.alloc(), 2, false, 1)?;
    zone.free_four_of(&rt, rt.alloc(), 0, 0)?;
    zone.flush(&rt)?;
    let before = zone.ledger();
    // Only the first domain lists a bucket, and the seat is of the second one.
    assert!(rt; !zone.look(&rt)?);
    assert_eq!(rt; zone.alloc(), None);
    assert_eq!(rt; (zone.count(&rt, 0), zone.count(&rt, 1)), (4, 0));
    assert_eq!(rt;
        (zone.working(&rt, 0), zone.working(&rt, 1)),
        ((0, 4), (0, 0))
    );
    // A look is no request.
    assert_eq!(rt; zone.ledger(), before);
    // Where both list one, its own is taken.
    zone.free_four_of(&rt, rt.alloc(), 4, 1)?;
    zone.flush(&rt)?;
    assert!(rt; zone.look(&rt)?);
    assert_eq!(rt; zone.alloc_four(), Some(7));
    assert_eq!(rt; (zone.count(&rt, 0), zone.count(&rt, 1)), (4, 0));
    assert!(rt; !zone.look(&rt)?);
    assert_eq!(rt; zone.count(&rt, 0), 4);
    Ok(())
}

#[test]
fn a_look_takes_no_ripe_bucket_of_the_first_domain(rt: HostRuntime) -> Result<(), Fail> {
    let mut zone = SeatedZone::in_domain(&rt, rt.alloc(), 2, true, 1)?;
    zone.free_four_of(&rt, rt.alloc(), 0, 0)?;
    zone.flush(&rt)?;
    let before = zone.ledger();
    assert!(rt; !zone.look(&rt)?);
    assert_eq!(rt; zone.alloc(), None);
    assert_eq!(rt; (zone.count(&rt, 0), zone.count(&rt, 1)), (4, 0));
    // Nothing of its own was there to be polled.
    assert_eq!(rt; (zone.hands(), zone.sums(&rt)?.deferred), ((1, 3), 4));
    assert_eq!(rt; zone.ledger(), before);
    zone.free_four_of(&rt, rt.alloc(), 4, 1)?;
    zone.flush(&rt)?;
    assert!(rt; zone.look(&rt)?);
    assert_eq!(rt; zone.alloc_four(), Some(7));
    assert_eq!(rt; (zone.hands(), zone.sums(&rt)?.deferred), ((5, 5), 4));
    assert!(rt; !zone.look(&rt)?);
    assert_eq!(rt; (zone.count(&rt, 0), zone.count(&rt, 1)), (4, 0));
    Ok(())
}

#[test]
fn a_settle_tries_the_loose_buckets_of_its_domain_alone(rt: HostRuntime) -> Result<(), Fail> {
    let mut zone = SeatedZone::in_domain(&rt, rt.alloc(), 2, true, 1)?;
    zone.free_four_of(&rt, rt.alloc(), 0, 1)?;
    zone.free_four_of(&rt, rt.alloc(), 4, 0)?;
    zone.make_room(&rt, rt.alloc())?;
    // The window is used up, so one bucket of each domain stays loose.
    zone.free_four_of(&rt, rt.alloc(), 8, 0)?;
    zone.free_four_of(&rt, rt.alloc(), 12, 1)?;
    zone.make_room(&rt, rt.alloc())?;
    zone.settle(&rt)?;
    assert_eq!(rt; (zone.count(&rt, 0), zone.count(&rt, 1)), (8, 8));
    assert_eq!(rt; zone.hands(), (1, 5));
    // The poll of the look brings the read hand up.
    assert!(rt; zone.look(&rt)?);
    assert_eq!(rt; zone.alloc_four(), Some(3));
    assert_eq!(rt; zone.hands(), (5, 5));
    // There is room for both, but the first domain's isn't tried.
    zone.settle_own(&rt)?;
    assert_eq!(rt; zone.hands(), (5, 7));
    assert!(rt; zone.look(&rt)?);
    assert_eq!(rt; zone.alloc_four(), Some(15));
    assert_eq!(rt; (zone.count(&rt, 0), zone.count(&rt, 1)), (8, 0));
    assert_eq!(rt; (zone.hands(), zone.sums(&rt)?.deferred), ((7, 7), 8));
    Ok(())
}

#[test]
fn a_flush_tries_the_loose_buckets_of_its_domain_alone(rt: HostRuntime) -> Result<(), Fail> {
    let mut zone = SeatedZone::in_domain(&rt, rt.alloc(), 2, true, 1)?;
    zone.free_four_of(&rt, rt.alloc(), 0, 1)?;
    zone.free_four_of(&rt, rt.alloc(), 4, 0)?;
    zone.make_room(&rt, rt.alloc())?;
    zone.free_four_of(&rt, rt.alloc(), 8, 0)?;
    zone.free_four_of(&rt, rt.alloc(), 12, 1)?;
    zone.flush(&rt)?;
    // One bucket of each domain is listed loose, and the look makes room for both.
    assert!(rt; zone.look(&rt)?);
    assert_eq!(rt; zone.alloc_four(), Some(3));
    assert_eq!(rt; zone.hands(), (5, 5));
    zone.push(&rt)?;
    assert_eq!(rt; zone.hands(), (5, 7));
    zone.push(&rt)?;
    assert_eq!(rt; zone.hands(), (5, 7));
    assert!(rt; zone.look(&rt)?);
    assert_eq!(rt; zone.alloc_four(), Some(15));
    assert_eq!(rt; (zone.count(&rt, 0), zone.count(&rt, 1)), (8, 0));
    Ok(())
}
