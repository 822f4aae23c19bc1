use super::calls::{adds_by_the_last, fetches, new_keg, new_seat};
use std::test::Fail;
use uma_keg::FetchRefused;
use zone_stats::Refusal;

/// A second seat of a zone at its limit is refused, which its own ledger counts.
#[test]
fn a_zone_is_refused_at_its_limit(rt: HostRuntime) -> Result<(), Fail> {
    let (mut locked, mut rights) = new_keg(&rt, rt.alloc(), 2)?;
    let Some((zone, share)) = adds_by_the_last(&mut locked, &mut rights, 3) else {
        return Err(Fail::new("no right"));
    };
    let mut seat = new_seat(rt.alloc(), &locked, zone, share)?;
    assert!(rt; !locked.has_zone(1) && locked.has_zone(zone));
    let fetched = fetches(&rt, rt.alloc(), &mut locked, zone, &mut seat)?;
    assert_eq!(rt; (zone, fetched), (0, Some(Ok(3))));
    assert_eq!(rt; seat.ledger().fails, 0);
    let share = locked.fails.new_share(0);
    let mut other = new_seat(rt.alloc(), &locked, 0, share)?;
    let at_limit = Refusal::AtLimit { out: 3, limit: 3 };
    let fetched = fetches(&rt, rt.alloc(), &mut locked, 0, &mut other)?;
    let refused = FetchRefused::Refused { refusal: at_limit };
    assert_eq!(rt; fetched, Some(Err(refused)));
    let ledger = other.ledger();
    assert_eq!(rt; (ledger.requests, ledger.turned), (1, 1));
    assert_eq!(rt; ledger.last, Some(at_limit));

    // A lowered limit takes nothing away, and a raised one gives what is within it.
    assert_eq!(rt; locked.set_limit(0, 2), 3);
    let at_limit = Refusal::AtLimit { out: 3, limit: 2 };
    let fetched = fetches(&rt, rt.alloc(), &mut locked, 0, &mut other)?;
    let refused = FetchRefused::Refused { refusal: at_limit };
    assert_eq!(rt; fetched, Some(Err(refused)));
    assert_eq!(rt; locked.set_limit(0, 4), 2);
    let fetched = fetches(&rt, rt.alloc(), &mut locked, 0, &mut other)?;
    assert_eq!(rt; fetched, Some(Ok(1)));
    Ok(())
}

/// Zone 1 has no limit, beside zone 0 with one of 3.
#[test]
fn each_zone_has_its_own_limit(rt: HostRuntime) -> Result<(), Fail> {
    let (mut locked, mut rights) = new_keg(&rt, rt.alloc(), 2)?;
    assert!(rt; adds_by_the_last(&mut locked, &mut rights, 3).is_some());
    let Some((zone, share)) = adds_by_the_last(&mut locked, &mut rights, 0) else {
        return Err(Fail::new("no right"));
    };
    let mut seat = new_seat(rt.alloc(), &locked, zone, share)?;
    assert!(rt; locked.has_zone(0) && locked.has_zone(1));
    assert_eq!(rt; locked.set_limit(0, 1), 3);
    let fetched = fetches(&rt, rt.alloc(), &mut locked, zone, &mut seat)?;
    assert_eq!(rt; (zone, fetched), (1, Some(Ok(4))));
    Ok(())
}
