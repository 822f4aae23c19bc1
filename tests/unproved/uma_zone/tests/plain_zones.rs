use super::seated_zone::SeatedZone;
use deed_book::Memory;
use std::test::Fail;

#[test]
fn make_room_brings_back_two_spares(rt: HostRuntime) -> Result<(), Fail> {
    let mut zone = SeatedZone::new(&rt, rt.alloc(), 1, false)?;
    zone.free_four(&rt, rt.alloc(), 0)?;
    zone.free_four(&rt, rt.alloc(), 4)?;
    assert_eq!(rt; (zone.spare(), zone.count(&rt, 0)), (0, 0));
    zone.make_room(&rt, rt.alloc())?;
    // They are in the inbox, and a settle lists them.
    assert_eq!(rt; (zone.spare(), zone.count(&rt, 0)), (2, 0));
    assert_eq!(rt; zone.take_shelf(), None);
    zone.settle(&rt)?;
    assert_eq!(rt; zone.count(&rt, 0), 8);
    Ok(())
}

#[test]
fn a_look_takes_the_newest_bucket(rt: HostRuntime) -> Result<(), Fail> {
    let mut zone = SeatedZone::new(&rt, rt.alloc(), 1, false)?;
    assert!(rt; !zone.look(&rt)?);
    zone.free_four(&rt, rt.alloc(), 0)?;
    zone.free_four(&rt, rt.alloc(), 4)?;
    zone.flush(&rt)?;
    assert!(rt; zone.look(&rt)?);
    assert_eq!(rt;
        [zone.alloc(), zone.alloc(), zone.alloc(), zone.alloc()],
        [Some(7), Some(6), Some(5), Some(4)]
    );
    assert!(rt; zone.look(&rt)?);
    assert_eq!(rt; zone.count(&rt, 0), 0);
    assert_eq!(rt; zone.alloc(), Some(3));
    Ok(())
}

#[test]
fn a_flush_puts_each_bucket_into_the_list_of_its_own_domain(rt: HostRuntime) -> Result<(), Fail> {
    let mut zone = SeatedZone::new(&rt, rt.alloc(), 3, false)?;
    for no in 0..4 {
        zone.free(&rt, rt.alloc(), no, 2)?;
    }
    zone.free_four(&rt, rt.alloc(), 4)?;
    zone.flush(&rt)?;
    assert_eq!(rt;
        (zone.count(&rt, 0), zone.count(&rt, 1), zone.count(&rt, 2)),
        (4, 0, 4)
    );
    // The look is at the seat's own domain, and only there.
    assert!(rt; zone.look(&rt)?);
    assert_eq!(rt; zone.alloc(), Some(7));
    Ok(())
}

#[test]
fn no_item_is_lost_where_a_flush_meets_no_memory(rt: HostRuntime) -> Result<(), Fail> {
    let mut zone = SeatedZone::new(&rt, rt.alloc(), 2, false)?;
    for no in 0..4 {
        zone.free(&rt, rt.alloc(), no, 1)?;
    }
    zone.free_four(&rt, rt.alloc(), 4)?;
    let flushed = zone.push(&rt);
    // Where a settle meets no memory, the next one goes on.
    if zone.settle(&rt).is_err() {
        zone.settle(&rt)?;
    }
    let listed = zone.count(&rt, 0) + zone.count(&rt, 1);
    let oldest = u64::from(zone.take_shelf().unwrap_or(0));
    let shelved = oldest + u64::from(zone.take_shelf().unwrap_or(0));
    assert_eq!(rt; listed + shelved, 8);
    match flushed {
        Ok(()) => assert_eq!(rt; shelved, 0),
        Err(Memory) => assert!(rt; shelved > 0),
    }
    Ok(())
}
