ghost use Rattle.std.specs.Prelude.{◌≡◌, All, IfOk};
ghost use Rattle.uma_life.specs.Cached.{cached_table};
ghost use Rattle.uma_bucket.specs.Bucket.{items_of};
ghost use Rattle.uma_keg.specs.Keg.{table_in};
ghost use Rattle.locked_keg.specs.LockedKeg.{keg_in};

use super::calls::{adds_by_the_last, marks, new_keg, told};
use super::marks::MarksKeg;
use std::alloc::Global;
use std::sync::Wait;
use std::test::Fail;
use uma_bucket::Bucket;
use uma_item::Item;
use uma_keg::FetchAsk;

/// A bucket of three items of zone 0, where the zone exists.
fn three_items<R: Wait>(
    rt: &R,
    alloc: Global,
    locked: &mut MarksKeg,
) -> Result<Bucket<Item<u32>>, Fail>
    ensures { IfOk result (λ bucket. All (λ item. cached_table item ≡ table_in (keg_in locked.new)) (items_of bucket)) }
{
    let mut bucket = Bucket::make(alloc, 4)?;
    let ask = FetchAsk {
        zone: 0,
        most: 3,
        reserve: false,
        domain: 1,
    };
    if !locked.has_zone(0) {
        return Err(Fail::new("no zone"));
    }
    if told(locked.keg.fetch(rt, alloc, &marks(), ask, &mut bucket))?.is_err() {
        return Err(Fail::new("refused"));
    }
    Ok(bucket)
}

#[test]
fn a_bucket_of_items_comes_back(rt: HostRuntime) -> Result<(), Fail> {
    let (mut locked, mut rights) = new_keg(&rt, rt.alloc(), 2)?;
    assert!(rt; adds_by_the_last(&mut locked, &mut rights, 0).is_some());
    let bucket = three_items(&rt, rt.alloc(), &mut locked)?;
    assert_eq!(rt; locked.counts().free, 1);
    assert_eq!(rt; locked.give_all(&marks(), bucket), 3);
    assert_eq!(rt; (locked.counts().free, locked.keg.out(0)), (4, 0));
    Ok(())
}
