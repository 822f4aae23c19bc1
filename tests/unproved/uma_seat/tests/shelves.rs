use super::clock::two_seats;
use super::plain_seat::PlainSeat;
use std::test::Fail;

#[test]
fn eight_frees_use_up_the_spares(rt: HostRuntime) -> Result<(), Fail> {
    let (clock, _, _) = two_seats(rt.alloc(), 1)?;
    let mut worked = PlainSeat::new(rt.alloc(), &clock, 3)?;
    for no in 0..8 {
        assert!(rt; worked.free(&rt, rt.alloc(), no, 0)?);
    }
    assert_eq!(rt; (worked.spare(), worked.cross()), (0, 0));
    assert!(rt; !worked.free(&rt, rt.alloc(), 8, 0)?);
    assert_eq!(rt; worked.take_bucket(), Some((0, 4)));
    assert_eq!(rt; worked.take_bucket(), Some((0, 4)));
    assert_eq!(rt; worked.take_bucket(), None);
    Ok(())
}

#[test]
fn frees_of_other_domains_are_kept_apart(rt: HostRuntime) -> Result<(), Fail> {
    let (clock, _, _) = two_seats(rt.alloc(), 1)?;
    let mut worked = PlainSeat::new(rt.alloc(), &clock, 3)?;
    for no in 0..12 {
        worked.free(&rt, rt.alloc(), no, (no % 3) as u8)?;
    }
    // The fourth of domain 0 is item 9, the fourth of domain 1 is item 10, and then there is no spare.
    assert_eq!(rt; (worked.spare(), worked.cross()), (0, 7));
    assert_eq!(rt; worked.take_bucket(), Some((0, 4)));
    assert_eq!(rt; worked.take_bucket(), Some((1, 4)));
    for no in [8, 5, 2] {
        assert_eq!(rt; worked.take_cross(), Some(no));
    }
    assert_eq!(rt; worked.take_cross(), None);
    Ok(())
}
