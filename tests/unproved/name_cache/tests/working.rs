use super::setting::new_cache;
use super::worker::new_worker;
use crate::{BindRefused, Receipt};
use std::test::Fail;
use zone_stats::SeatLedger;

#[test]
fn a_new_name_of_a_row_evicts_the_old_one(rt: HostRuntime) -> Result<(), Fail> {
    let alloc = rt.alloc();
    let (cache, clock, passes) = new_cache(alloc, 8, 2, 0)?;
    let mut one = new_worker(&rt, alloc, &cache, &clock, passes)?;
    let bound = |version| Ok(Receipt { row: 3, version });
    assert_eq!(rt; one.bind(&rt, alloc, 3, 30)?, bound(1));
    assert_eq!(rt; one.look(3)?, Some(30));
    assert_eq!(rt; one.bind(&rt, alloc, 11, 110)?, bound(2));
    assert_eq!(rt; one.look(3)?, None);
    assert_eq!(rt; one.look(11)?, Some(110));
    let out = Some((110, Receipt { row: 3, version: 3 }));
    assert_eq!(rt; one.unbind(&rt, alloc, 3)?, None);
    assert_eq!(rt; one.unbind(&rt, alloc, 11)?, out);
    assert_eq!(rt; one.look(11)?, None);
    Ok(())
}

// Requests, allocs, fails, frees and those across domains.
fn counted(ledger: SeatLedger) -> [u64; 5] {
    [
        ledger.requests,
        ledger.allocs,
        ledger.fails,
        ledger.frees,
        ledger.cross,
    ]
}

#[test]
fn what_is_evicted_or_taken_out_is_deferred(rt: HostRuntime) -> Result<(), Fail> {
    let alloc = rt.alloc();
    let (cache, clock, passes) = new_cache(alloc, 8, 2, 0)?;
    let mut one = new_worker(&rt, alloc, &cache, &clock, passes)?;
    assert!(rt; one.bind(&rt, alloc, 3, 30)?.is_ok());
    assert!(rt; one.bind(&rt, alloc, 11, 110)?.is_ok());
    assert!(rt; one.unbind(&rt, alloc, 11)?.is_some());
    assert_eq!(rt; counted(one.seat.ledger()), [2, 2, 0, 2, 0]);
    let sums = one.seat.sums();
    assert_eq!(rt;
        (
            sums.deferred,
            sums.tally.zones[0].ctors,
            sums.tally.zones[0].dtors
        ),
        (2, 2, 0)
    );
    assert_eq!(rt; one.hands(), (1, 1));
    let census = cache.census(&rt, alloc)?;
    assert_eq!(rt;
        (
            census.counts().slabs,
            census.counts().free,
            census.outs()[0]
        ),
        (1, 60, 4)
    );
    Ok(())
}

#[test]
fn linked_entries_count_in_the_sums(rt: HostRuntime) -> Result<(), Fail> {
    let alloc = rt.alloc();
    let (cache, clock, passes) = new_cache(alloc, 8, 2, 0)?;
    let mut one = new_worker(&rt, alloc, &cache, &clock, passes)?;
    assert!(rt; one.bind_all(&rt, alloc, 6)?);
    let sums = cache.sums(&rt)?;
    assert!(rt;
        sums.deferred == 0 && sums.tally.zones[0].ctors == 6 && sums.tally.zones[0].dtors == 0
    );
    Ok(())
}

#[test]
fn evicted_entries_are_bound_again(rt: HostRuntime) -> Result<(), Fail> {
    let alloc = rt.alloc();
    let (cache, clock, passes) = new_cache(alloc, 8, 1, 0)?;
    let mut one = new_worker(&rt, alloc, &cache, &clock, passes)?;
    assert!(rt; one.bind_all(&rt, alloc, 200)?);
    assert_eq!(rt; one.look(199)?, Some(199));
    assert_eq!(rt; one.look(191)?, None);
    let ledger = one.seat.ledger();
    assert!(rt; ledger.allocs == 200 && ledger.frees == 192);
    Ok(())
}

#[test]
fn a_worn_row_takes_no_name(rt: HostRuntime) -> Result<(), Fail> {
    let alloc = rt.alloc();
    let version = (1 << 44) - 2;
    let (cache, clock, passes) = new_cache(alloc, 8, 2, version)?;
    let mut one = new_worker(&rt, alloc, &cache, &clock, passes)?;
    let worn = Err(BindRefused::Worn { row: 5, version });
    assert_eq!(rt; one.bind(&rt, alloc, 5, 50)?, worn);
    assert_eq!(rt; one.look(5)?, None);
    assert_eq!(rt; one.unbind(&rt, alloc, 5)?, None);

    // The entry of the refused bind is deferred.
    let ledger = one.seat.ledger();
    assert!(rt; ledger.allocs == 1 && ledger.fails == 0 && ledger.frees == 1);
    assert_eq!(rt; one.seat.sums().deferred, 1);
    Ok(())
}

#[test]
fn the_last_version_of_a_row_is_an_unbinding(rt: HostRuntime) -> Result<(), Fail> {
    let alloc = rt.alloc();
    let version = (1 << 44) - 2;
    let (cache, clock, passes) = new_cache(alloc, 1, 1, version - 1)?;
    let mut one = new_worker(&rt, alloc, &cache, &clock, passes)?;
    let bound = Ok(Receipt { row: 0, version });
    assert_eq!(rt; one.bind(&rt, alloc, 7, 70)?, bound);
    let worn = Err(BindRefused::Worn { row: 0, version });
    assert_eq!(rt; one.bind(&rt, alloc, 8, 80)?, worn);
    assert_eq!(rt; one.look(7)?, Some(70));
    let last = Receipt {
        row: 0,
        version: version + 1,
    };
    assert_eq!(rt; one.unbind(&rt, alloc, 7)?, Some((70, last)));
    Ok(())
}
