use crate::tests::calls::{PlainKeg, adds_by_the_last, fetches, refused};
use crate::tests::refusing::{hooks_refusing, no_refusal};
use crate::{FetchAsk, KegCounts};
use std::test::Fail;
use uma_bucket::Bucket;
use zone_stats::Refusal;

/// Items of 2,048 bytes, two a slab, at most two slabs, and a limit of three items in zone 0.
#[test]
fn a_fetch_stops_at_the_limit(rt: HostRuntime) -> Result<(), Fail> {
    let (mut keg, mut rights) = PlainKeg::new(rt.alloc(), 2048, 2, 0, no_refusal())?;
    let mut into = Bucket::make(rt.alloc(), 8)?;
    let Some(right) = rights.pop() else {
        return Err(Fail::new("no right"));
    };
    assert_eq!(rt; keg.add_zone(right, 3), 0);
    let ask = FetchAsk {
        zone: 0,
        most: 2,
        reserve: false,
        domain: 1,
    };
    assert_eq!(rt;
        fetches(&rt, rt.alloc(), &mut keg, &no_refusal(), ask, &mut into)?,
        Some(Ok(2))
    );
    assert_eq!(rt;
        fetches(&rt, rt.alloc(), &mut keg, &no_refusal(), ask, &mut into)?,
        Some(Ok(1))
    );
    let at_limit = refused(Refusal::AtLimit { out: 3, limit: 3 });
    assert_eq!(rt;
        fetches(&rt, rt.alloc(), &mut keg, &no_refusal(), ask, &mut into)?,
        at_limit
    );
    assert_eq!(rt; (keg.out(0), into.len()), (3, 3));

    // A lowered limit takes nothing away, and no fetch gives an item until fewer are outside.
    assert_eq!(rt; (keg.set_limit(0, 2), keg.limit(0), keg.limit(1)), (3, 2, 0));
    let at_limit = refused(Refusal::AtLimit { out: 3, limit: 2 });
    assert_eq!(rt;
        fetches(&rt, rt.alloc(), &mut keg, &no_refusal(), ask, &mut into)?,
        at_limit
    );
    assert_eq!(rt; keg.set_limit(0, 0), 2);
    assert_eq!(rt;
        fetches(&rt, rt.alloc(), &mut keg, &no_refusal(), ask, &mut into)?,
        Some(Ok(1))
    );
    assert_eq!(rt; keg.set_limit(0, 3), 0);
    let at_limit = refused(Refusal::AtLimit { out: 4, limit: 3 });
    assert_eq!(rt;
        fetches(&rt, rt.alloc(), &mut keg, &no_refusal(), ask, &mut into)?,
        at_limit
    );
    Ok(())
}

/// Items of 2,048 bytes, two a slab, at most two slabs. A reserve of three: one item lies beyond it once both slabs are
/// in, and a request with the right gets one item of the reserve at a time, until none is free.
#[test]
fn a_fetch_keeps_the_reserve_and_stops_at_the_cap(rt: HostRuntime) -> Result<(), Fail> {
    let (mut keg, mut rights) = PlainKeg::new(rt.alloc(), 2048, 2, 3, no_refusal())?;
    let mut into = Bucket::make(rt.alloc(), 8)?;
    let Some(right) = rights.pop() else {
        return Err(Fail::new("no right"));
    };
    assert_eq!(rt; keg.add_zone(right, 0), 0);
    let ask = FetchAsk {
        zone: 0,
        most: 4,
        reserve: false,
        domain: 1,
    };
    let may = FetchAsk {
        reserve: true,
        ..ask
    };
    let reserved = refused(Refusal::Reserved {
        free: 3,
        reserve: 3,
    });
    let full = refused(Refusal::Full { slabs: 2, made: 2 });
    let rows = [
        (ask, Some(Ok(1))),
        (ask, reserved),
        (may, Some(Ok(1))),
        (may, Some(Ok(1))),
        (may, Some(Ok(1))),
        (may, full),
        (ask, full),
    ];
    for (ask, answer) in rows {
        let fetched = fetches(&rt, rt.alloc(), &mut keg, &no_refusal(), ask, &mut into)?;
        assert_eq!(rt; fetched, answer);
    }
    let counts = KegCounts {
        slabs: 2,
        cap: 2,
        made: 2,
        free: 0,
        per_slab: 2,
        reserve: 3,
    };
    assert_eq!(rt; keg.counts(), counts);
    Ok(())
}

/// A secondary zone whose `zone_init` refuses item 2 gets items 0 and 1, and then none.
#[test]
fn a_refused_item_stays_in_the_keg(rt: HostRuntime) -> Result<(), Fail> {
    let (mut keg, mut rights) = PlainKeg::new(rt.alloc(), 1024, 2, 0, no_refusal())?;
    let mut into = Bucket::make(rt.alloc(), 8)?;
    assert_eq!(rt; adds_by_the_last(&mut keg, &mut rights, 0), Some(0));
    assert_eq!(rt; adds_by_the_last(&mut keg, &mut rights, 0), Some(1));
    let ask = FetchAsk {
        zone: 1,
        most: 4,
        reserve: false,
        domain: 1,
    };
    let hooks = hooks_refusing(2, 9);
    let init = refused(Refusal::Init { code: 9 });
    assert_eq!(rt;
        fetches(&rt, rt.alloc(), &mut keg, &hooks, ask, &mut into)?,
        Some(Ok(2))
    );
    assert_eq!(rt;
        fetches(&rt, rt.alloc(), &mut keg, &hooks, ask, &mut into)?,
        init
    );
    assert_eq!(rt; (keg.out(1), keg.counts().free, into.len()), (2, 2, 2));
    let Some(item) = into.pop() else {
        return Err(Fail::new("no item"));
    };
    assert_eq!(rt; (item.no(), item.zone(), item.domain()), (1, 1, 1));
    Ok(())
}

/// Four items a slab. The keg's own hooks refuse the third item of the first slab, or the second one of the second slab:
/// those made before it in its slab pass `keg_fini`, and the slabs before it stay.
#[test]
fn a_refused_slab_ends_a_fetch(rt: HostRuntime) -> Result<(), Fail> {
    for (number, slabs, free, inits, finis) in [(2, 0, 0, 2, 2), (5, 1, 4, 5, 1)] {
        let hooks = hooks_refusing(number, 9);
        let (mut keg, mut rights) = PlainKeg::new(rt.alloc(), 1024, 3, 4, hooks)?;
        let mut into = Bucket::make(rt.alloc(), 4)?;
        assert_eq!(rt; adds_by_the_last(&mut keg, &mut rights, 0), Some(0));
        let ask = FetchAsk {
            zone: 0,
            most: 4,
            reserve: true,
            domain: 1,
        };
        let init = refused(Refusal::Init { code: 9 });
        let fetched = fetches(&rt, rt.alloc(), &mut keg, &no_refusal(), ask, &mut into)?;
        assert_eq!(rt; fetched, init);
        let counts = keg.counts();
        assert_eq!(rt;
            (counts.slabs, counts.free, keg.out(0), into.len()),
            (slabs, free, 0, 0)
        );
        let sums = keg.wide_tally();
        assert_eq!(rt; (sums.keg_inits, sums.keg_finis), (inits, finis));
    }
    Ok(())
}
