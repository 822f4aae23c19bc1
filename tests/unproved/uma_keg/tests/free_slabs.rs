use crate::FetchAsk;
use crate::tests::calls::{PlainKeg, adds_by_the_last, fetches, told};
use crate::tests::refusing::no_refusal;
use std::test::Fail;
use uma_bucket::Bucket;

#[test]
fn the_reserve_stays_free(rt: HostRuntime) -> Result<(), Fail> {
    for (reserve, freed, left) in [
        (0, 2, 0),
        (1, 1, 2),
        (2, 1, 2),
        (3, 0, 4),
        (4, 0, 4),
        (5, 0, 4),
    ] {
        let (mut keg, _rights) = PlainKeg::new(rt.alloc(), 2048, 3, reserve, no_refusal())?;
        assert_eq!(rt; told(keg.bring(&rt, rt.alloc(), 0))?, Ok(()));
        assert_eq!(rt; told(keg.bring(&rt, rt.alloc(), 1))?, Ok(()));
        assert_eq!(rt; keg.free_slabs(&rt), freed);
        assert_eq!(rt; (keg.counts().free, keg.counts().made), (left, 2));
    }
    Ok(())
}

#[test]
fn the_items_of_a_slab_that_goes_are_buried(rt: HostRuntime) -> Result<(), Fail> {
    let (mut keg, _rights) = PlainKeg::new(rt.alloc(), 256, 2, 0, no_refusal())?;
    assert_eq!(rt; keg.free_slabs(&rt), 0);
    assert_eq!(rt; told(keg.bring(&rt, rt.alloc(), 0))?, Ok(()));
    assert_eq!(rt; told(keg.bring(&rt, rt.alloc(), 0))?, Ok(()));
    assert_eq!(rt; keg.free_slabs(&rt), 2);
    let sums = keg.wide_tally();
    assert_eq!(rt; (sums.keg_inits, sums.keg_finis), (32, 32));
    Ok(())
}

/// Three slabs of two items, and a reserve of two. Of slabs 0 and 1, of domains 3 and 4, the second is given up: then
/// fetches bring in slabs 1 and 2, of domain 5, and take all items out.
#[test]
fn the_slab_of_greatest_index_goes(rt: HostRuntime) -> Result<(), Fail> {
    let (mut keg, mut rights) = PlainKeg::new(rt.alloc(), 2048, 3, 2, no_refusal())?;
    let mut into = Bucket::make(rt.alloc(), 16)?;
    assert_eq!(rt; adds_by_the_last(&mut keg, &mut rights, 0), Some(0));
    assert_eq!(rt; told(keg.bring(&rt, rt.alloc(), 3))?, Ok(()));
    assert_eq!(rt; told(keg.bring(&rt, rt.alloc(), 4))?, Ok(()));
    assert_eq!(rt; (keg.free_slabs(&rt), keg.counts().slabs), (1, 1));
    let ask = FetchAsk {
        zone: 0,
        most: 4,
        reserve: true,
        domain: 5,
    };
    for count in [2, 2, 1, 1] {
        let fetched = fetches(&rt, rt.alloc(), &mut keg, &no_refusal(), ask, &mut into)?;
        assert_eq!(rt; fetched, Some(Ok(count)));
    }
    let mut seen = Vec::new(rt.alloc());
    for _ in 0..6 {
        let Some(item) = into.pop() else {
            return Err(Fail::new("no item"));
        };
        seen.push((item.no(), item.domain()))?;
    }
    seen.sort()?;
    let all = [(0, 3), (1, 3), (2, 5), (3, 5), (4, 5), (5, 5)];
    assert_eq!(rt; seen.as_slice(), all.as_slice());
    assert_eq!(rt; (keg.counts().slabs, keg.counts().made), (3, 4));
    Ok(())
}
