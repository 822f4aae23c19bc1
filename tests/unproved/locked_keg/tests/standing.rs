use super::calls::{adds_by_the_last, new_keg, told};
use std::test::Fail;
use uma_keg::{FetchRefused, KegCounts};
use uma_life::Lives;
use zone_stats::Refusal;

#[test]
fn a_keg_has_eight_zones(rt: HostRuntime) -> Result<(), Fail> {
    let (mut locked, mut rights) = new_keg(&rt, rt.alloc(), 2)?;
    for wanted in 0..8 {
        let added = adds_by_the_last(&mut locked, &mut rights, 5);
        assert_eq!(rt; added.map(|(zone, _)| zone), Some(wanted));
        assert!(rt; locked.has_zone(wanted) && locked.set_limit(wanted, 5) == 5);
    }
    assert!(rt; adds_by_the_last(&mut locked, &mut rights, 5).is_none());
    Ok(())
}

#[test]
fn slabs_are_brought_in_until_one_is_refused(rt: HostRuntime) -> Result<(), Fail> {
    let (mut locked, _rights) = new_keg(&rt, rt.alloc(), 3)?;
    assert_eq!(rt; told(locked.bring_slabs(&rt, rt.alloc(), 2, 1))?, Ok(2));
    let full = FetchRefused::Refused {
        refusal: Refusal::Full { slabs: 3, made: 3 },
    };
    assert_eq!(rt; told(locked.bring_slabs(&rt, rt.alloc(), 2, 0))?, Err(full));
    let counts = KegCounts {
        slabs: 3,
        cap: 3,
        made: 3,
        free: 12,
        per_slab: 4,
        reserve: 0,
    };
    assert_eq!(rt; locked.counts(), counts);
    assert_eq!(rt; locked.free_slabs(&rt), 3);
    Ok(())
}

#[test]
fn a_census_counts_what_is_free_and_what_is_outside(rt: HostRuntime) -> Result<(), Fail> {
    let (mut locked, mut rights) = new_keg(&rt, rt.alloc(), 2)?;
    assert!(rt; adds_by_the_last(&mut locked, &mut rights, 0).is_some());
    assert_eq!(rt; told(locked.bring_slabs(&rt, rt.alloc(), 1, 0))?, Ok(1));
    let lives = Lives::from_vec(Vec::new(rt.alloc()));
    let Ok((census, back)) = locked.census(rt.alloc(), lives) else {
        return Err(Fail::new("no memory"));
    };
    assert_eq!(rt; (census.counts().free, census.outs()), (4, [0; 8]));
    assert_eq!(rt; back.len(), 0);
    Ok(())
}
