ghost use Rattle.std.specs.Prelude.{◌≡◌, ◌≤◌, true};

use super::setting::{SET, new_cache, open_names};
use super::worker::new_worker;
use crate::{BindRefused, NameCache, Receipt};
use deed_book::Memory;
use std::alloc::Global;
use std::test::Fail;
use uma_zone::{ZoneRefused, ZoneSet};
use zone_stats::Refusal;

#[test]
fn a_bind_is_refused_where_its_zone_has_no_entry(rt: HostRuntime) -> Result<(), Fail> {
    let alloc = rt.alloc();
    let (cache, clock, passes) = new_cache(alloc, 128, 1, 0)?;
    let mut one = new_worker(&rt, alloc, &cache, &clock, passes)?;
    assert!(rt; one.bind_all(&rt, alloc, 64)?);
    let refusal = Refusal::Full { slabs: 1, made: 1 };
    let refused = Err(BindRefused::Zone { refusal });
    assert_eq!(rt; one.bind(&rt, alloc, 64, 64)?, refused);
    assert_eq!(rt; one.look(64)?, None);

    // Key 191 is of the row of key 63, which stays bound.
    assert_eq!(rt; one.bind(&rt, alloc, 191, 64)?, refused);
    assert_eq!(rt; one.look(191)?, None);
    assert_eq!(rt; one.look(63)?, Some(63));
    let ledger = one.seat.ledger();
    assert!(rt; ledger.allocs == 64 && ledger.turned == 2 && ledger.last == Some(refusal));
    Ok(())
}

#[test]
fn a_bind_is_refused_where_the_entry_is_not_ripe(rt: HostRuntime) -> Result<(), Fail> {
    let alloc = rt.alloc();
    let (cache, clock, passes) = new_cache(alloc, 8, 1, 0)?;
    let mut one = new_worker(&rt, alloc, &cache, &clock, passes)?;
    assert!(rt; one.bind_all(&rt, alloc, 3)?);
    assert!(rt; one.unbind(&rt, alloc, 0)?.is_some());
    assert!(rt; one.unbind(&rt, alloc, 1)?.is_some());
    assert!(rt; one.unbind(&rt, alloc, 2)?.is_some());

    // The fourth entry is freed without a stamp, as no call of the cache does. Its bucket is full then, and sealed.
    assert!(rt; one.bind(&rt, alloc, 3, 30)?.is_ok());
    one.free_unstamped(&rt, 3)?;

    // The next bind gets it: it is stamped only now, above the read hand.
    let unripe = Err(BindRefused::Unripe { read: 3, stamp: 5 });
    assert_eq!(rt; one.bind(&rt, alloc, 4, 40)?, unripe);
    assert_eq!(rt; one.look(4)?, None);
    let ledger = one.seat.ledger();
    assert!(rt; ledger.allocs == 5 && ledger.fails == 0 && ledger.frees == 5);
    assert_eq!(rt; one.seat.sums().deferred, 1);

    // The others of the bucket have stamps that are expired.
    let bound = Ok(Receipt { row: 4, version: 1 });
    assert_eq!(rt; one.bind(&rt, alloc, 4, 40)?, bound);
    assert_eq!(rt; one.look(4)?, Some(40));
    Ok(())
}

// Why no cache of four rows is made with these numbers.
fn refusal_of(alloc: Global, set: ZoneSet) -> Result<Option<ZoneRefused>, Fail>
    requires smr { set.smr ≡ true }
    requires few { set.slabs ≤ 1 }
{
    let opened = open_names(alloc, 4, 1, 0)?;
    match NameCache::new(alloc, opened, set) {
        Ok(_) => Ok(None),
        Err(ZoneRefused::Memory) => Err(Memory)?,
        Err(why) => Ok(Some(why)),
    }
}

#[test]
fn a_making_names_the_first_number_out_of_range(rt: HostRuntime) -> Result<(), Fail> {
    let alloc = rt.alloc();
    let none = ZoneSet {
        slabs: 0,
        bucket: 3,
        ..SET
    };
    let wide = ZoneSet {
        bucket: 65,
        domains: 0,
        ..SET
    };
    let many = ZoneSet { domains: 5, ..SET };
    let slabs = Some(ZoneRefused::Slabs { slabs: 0 });
    assert_eq!(rt; refusal_of(alloc, none)?, slabs);
    let bucket = Some(ZoneRefused::Bucket { bucket: 65 });
    assert_eq!(rt; refusal_of(alloc, wide)?, bucket);
    let domains = Some(ZoneRefused::Domains { domains: 5 });
    assert_eq!(rt; refusal_of(alloc, many)?, domains);
    assert_eq!(rt; refusal_of(alloc, SET)?, None);
    Ok(())
}
