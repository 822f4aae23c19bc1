use super::seated_zone::SeatedZone;
use std::test::Fail;

#[test]
fn a_look_finds_nothing_while_a_section_is_open(rt: HostRuntime) -> Result<(), Fail> {
    let mut zone = SeatedZone::new(&rt, rt.alloc(), 1, true)?;
    zone.enter()?;
    zone.free_four(&rt, rt.alloc(), 0)?;
    zone.flush(&rt)?;
    assert_eq!(rt; zone.sums(&rt)?.deferred, 4);
    assert!(rt; !zone.look(&rt)?);
    assert_eq!(rt; zone.alloc(), None);
    zone.exit()?;
    assert!(rt; zone.look(&rt)?);
    assert_eq!(rt; zone.sums(&rt)?.deferred, 0);
    assert_eq!(rt;
        [zone.alloc(), zone.alloc(), zone.alloc(), zone.alloc()],
        [Some(3), Some(2), Some(1), Some(0)]
    );
    Ok(())
}

#[test]
fn a_flush_puts_each_sealed_bucket_into_the_list_of_its_own_domain(
    rt: HostRuntime,
) -> Result<(), Fail> {
    let mut zone = SeatedZone::new(&rt, rt.alloc(), 3, true)?;
    zone.free_four_of(&rt, rt.alloc(), 0, 2)?;
    zone.free_four_of(&rt, rt.alloc(), 4, 1)?;
    assert_eq!(rt; zone.hands(), (1, 5));
    zone.flush(&rt)?;
    assert_eq!(rt;
        (zone.count(&rt, 0), zone.count(&rt, 1), zone.count(&rt, 2)),
        (0, 4, 4)
    );
    // All that is freed is deferred, and all of it is of other domains than the seat's.
    let ledger = zone.ledger();
    assert_eq!(rt;
        (ledger.frees, ledger.cross, zone.sums(&rt)?.deferred),
        (8, 8, 8)
    );
    Ok(())
}

#[test]
fn a_flush_puts_each_loose_bucket_into_the_list_of_its_own_domain(
    rt: HostRuntime,
) -> Result<(), Fail> {
    let mut zone = SeatedZone::new(&rt, rt.alloc(), 3, true)?;
    zone.free_four(&rt, rt.alloc(), 0)?;
    zone.free_four(&rt, rt.alloc(), 4)?;
    zone.make_room(&rt, rt.alloc())?;
    // The window is used up, so these two stay loose.
    zone.free_four_of(&rt, rt.alloc(), 8, 2)?;
    zone.free_four_of(&rt, rt.alloc(), 12, 1)?;
    zone.flush(&rt)?;
    assert_eq!(rt; zone.hands(), (1, 5));
    assert_eq!(rt;
        (zone.count(&rt, 0), zone.count(&rt, 1), zone.count(&rt, 2)),
        (8, 4, 4)
    );
    let ledger = zone.ledger();
    assert_eq!(rt;
        (ledger.frees, ledger.cross, zone.sums(&rt)?.deferred),
        (16, 8, 16)
    );
    Ok(())
}

#[test]
fn a_later_flush_seals_what_stayed_loose(rt: HostRuntime) -> Result<(), Fail> {
    let mut zone = SeatedZone::new(&rt, rt.alloc(), 1, true)?;
    zone.enter()?;
    zone.free_four(&rt, rt.alloc(), 0)?;
    zone.free_four(&rt, rt.alloc(), 4)?;
    zone.make_room(&rt, rt.alloc())?;
    // The window is used up, so this bucket stays loose, on the shelf and in the list.
    zone.free_four(&rt, rt.alloc(), 8)?;
    zone.make_room(&rt, rt.alloc())?;
    zone.settle(&rt)?;
    assert_eq!(rt; (zone.spare(), zone.count(&rt, 0)), (2, 12));
    zone.exit()?;
    assert!(rt; zone.look(&rt)?);
    assert_eq!(rt; zone.alloc_four(), Some(3));
    assert!(rt; zone.look(&rt)?);
    assert_eq!(rt; zone.alloc_four(), Some(7));
    assert!(rt; !zone.look(&rt)?);
    // Now there is room in the window again.
    zone.flush(&rt)?;
    assert!(rt; zone.look(&rt)?);
    assert_eq!(rt; zone.alloc_four(), Some(11));
    Ok(())
}

#[test]
fn make_room_seals_what_its_domain_lists_loose(rt: HostRuntime) -> Result<(), Fail> {
    let mut zone = SeatedZone::new(&rt, rt.alloc(), 1, true)?;
    zone.free_four(&rt, rt.alloc(), 0)?;
    zone.free_four(&rt, rt.alloc(), 4)?;
    zone.make_room(&rt, rt.alloc())?;
    zone.free_four(&rt, rt.alloc(), 8)?;
    zone.make_room(&rt, rt.alloc())?;
    zone.settle(&rt)?;
    // The third bucket is listed loose, and the window is full.
    zone.make_room(&rt, rt.alloc())?;
    assert_eq!(rt; (zone.spare(), zone.hands()), (2, (1, 5)));
    // The poll of the look brings the read hand up.
    assert!(rt; zone.look(&rt)?);
    assert_eq!(rt; (zone.spare(), zone.hands()), (2, (5, 5)));
    assert_eq!(rt; zone.alloc_four(), Some(3));
    zone.make_room(&rt, rt.alloc())?;
    assert_eq!(rt; (zone.spare(), zone.hands()), (2, (5, 7)));
    // No loose bucket is left for another flush or a settle.
    zone.flush(&rt)?;
    assert_eq!(rt; zone.hands(), (5, 7));
    assert!(rt; zone.look(&rt)?);
    assert_eq!(rt; zone.alloc_four(), Some(7));
    assert!(rt; zone.look(&rt)?);
    assert_eq!(rt; zone.alloc_four(), Some(11));
    assert_eq!(rt; (zone.count(&rt, 0), zone.hands()), (0, (7, 7)));
    Ok(())
}

#[test]
fn a_flush_tries_the_shelf_before_the_list(rt: HostRuntime) -> Result<(), Fail> {
    let mut zone = SeatedZone::new(&rt, rt.alloc(), 1, true)?;
    zone.free_four(&rt, rt.alloc(), 0)?;
    zone.free_four(&rt, rt.alloc(), 4)?;
    zone.make_room(&rt, rt.alloc())?;
    zone.free_four(&rt, rt.alloc(), 8)?;
    zone.flush(&rt)?;
    zone.make_room(&rt, rt.alloc())?;
    // The window is used up: the third bucket is listed loose, and the fourth is loose on the shelf.
    zone.free_four(&rt, rt.alloc(), 12)?;
    assert!(rt; zone.look(&rt)?);
    assert_eq!(rt; zone.alloc_four(), Some(3));
    zone.free_four(&rt, rt.alloc(), 16)?;
    assert_eq!(rt; zone.hands(), (5, 7));
    // There is room for one more advance, which is the shelf's.
    zone.push(&rt)?;
    assert_eq!(rt; zone.hands(), (5, 9));
    zone.settle(&rt)?;
    assert!(rt; zone.look(&rt)?);
    assert_eq!(rt; zone.alloc_four(), Some(7));
    assert!(rt; zone.look(&rt)?);
    assert_eq!(rt; zone.alloc_four(), Some(15));
    assert!(rt; zone.look(&rt)?);
    assert_eq!(rt; zone.alloc_four(), Some(19));
    assert!(rt; !zone.look(&rt)?);
    assert_eq!(rt; (zone.count(&rt, 0), zone.hands()), (4, (9, 9)));
    // The next flush seals what is listed.
    zone.push(&rt)?;
    assert_eq!(rt; zone.hands(), (9, 11));
    assert!(rt; zone.look(&rt)?);
    assert_eq!(rt; zone.alloc_four(), Some(11));
    Ok(())
}
