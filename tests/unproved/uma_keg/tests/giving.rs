ghost use Rattle.std.specs.Prelude.{◌≡◌, ◌≢◌, IfOk, All};
ghost use Rattle.std.specs.Option.{IsSomeAnd};
ghost use Rattle.uma_life.specs.Cached.{cached_no, cached_zone, cached_table};
ghost use Rattle.uma_item.specs.Item.{item_data};
ghost use Rattle.uma_life.specs.Stored.{stored_body};
ghost use Rattle.uma_bucket.specs.Bucket.{items_of};
ghost use Rattle.uma_keg.specs.Keg.{table_in, stored_in};

use crate::tests::body::Plain;
use crate::tests::calls::{PlainKeg, adds_by_the_last, fetches, gives_last, refused};
use crate::tests::refusing::{RefusingHooks, marking, no_refusal};
use crate::{FetchAsk, FetchRefused};
use std::alloc::Global;
use std::sync::Wait;
use std::test::Fail;
use uma_bucket::Bucket;
use uma_life::{Body, Cached};
use zone_stats::Refusal;

/// A first fetch, into a bucket of four places, whose items are of the keg.
fn fetches_first<R: Wait>(
    rt: &R,
    alloc: Global,
    keg: &mut PlainKeg,
    hooks: &RefusingHooks,
    ask: FetchAsk,
) -> Result<(Option<Result<u32, FetchRefused>>, Bucket<Plain>), Fail>
    ensures table { table_in keg.new ≡ table_in keg.old }
    ensures of_keg { IfOk result (λ (fetched, into). All (λ item. cached_table item ≡ table_in keg.new) (items_of into)) }
{
    let mut into = Bucket::make(alloc, 4)?;
    let fetched = fetches(rt, alloc, keg, hooks, ask, &mut into)?;
    Ok((fetched, into))
}

/// Items of 1,024 bytes, four a slab, and a limit of two in zone 1. One that is given back is free, and is fetched again.
#[test]
fn what_is_given_back_is_fetched_again(rt: HostRuntime) -> Result<(), Fail> {
    let (mut keg, mut rights) = PlainKeg::new(rt.alloc(), 1024, 1, 0, no_refusal())?;
    assert_eq!(rt; adds_by_the_last(&mut keg, &mut rights, 0), Some(0));
    assert_eq!(rt; adds_by_the_last(&mut keg, &mut rights, 2), Some(1));
    let ask = FetchAsk {
        zone: 1,
        most: 2,
        reserve: false,
        domain: 1,
    };
    let at_limit = refused(Refusal::AtLimit { out: 2, limit: 2 });
    let (fetched, mut into) = fetches_first(&rt, rt.alloc(), &mut keg, &no_refusal(), ask)?;
    assert_eq!(rt; fetched, Some(Ok(2)));
    assert_eq!(rt;
        fetches(&rt, rt.alloc(), &mut keg, &no_refusal(), ask, &mut into)?,
        at_limit
    );
    assert_eq!(rt; gives_last(&mut keg, &no_refusal(), &mut into), Some(1));
    assert_eq!(rt; (keg.out(1), keg.counts().free, into.len()), (1, 3, 1));
    assert_eq!(rt;
        fetches(&rt, rt.alloc(), &mut keg, &no_refusal(), ask, &mut into)?,
        Some(Ok(1))
    );
    assert_eq!(rt; (keg.out(1), keg.counts().free, into.len()), (2, 2, 2));
    let Some(item) = into.pop() else {
        return Err(Fail::new("no item"));
    };
    let passed = item.body().tally().zones[1];
    assert_eq!(rt; (item.no(), passed.inits, passed.finis), (1, 2, 1));
    Ok(())
}

/// Items of a keg of one slab. One of zone 1 that is given back with the hooks of that zone has their mark, not the one of
/// the keg's hooks.
#[test]
fn what_is_given_back_has_the_mark_of_its_own_zone(rt: HostRuntime) -> Result<(), Fail> {
    let (mut keg, mut rights) = PlainKeg::new(rt.alloc(), 1024, 1, 0, marking(1))?;
    assert_eq!(rt; adds_by_the_last(&mut keg, &mut rights, 0), Some(0));
    assert_eq!(rt; adds_by_the_last(&mut keg, &mut rights, 0), Some(1));
    let ask = FetchAsk {
        zone: 1,
        most: 1,
        reserve: false,
        domain: 1,
    };
    let (fetched, mut into) = fetches_first(&rt, rt.alloc(), &mut keg, &marking(2), ask)?;
    assert_eq!(rt; fetched, Some(Ok(1)));
    assert_eq!(rt; gives_last(&mut keg, &marking(2), &mut into), Some(0));
    assert_eq!(rt;
        fetches(&rt, rt.alloc(), &mut keg, &marking(2), ask, &mut into)?,
        Some(Ok(1))
    );
    let Some(item) = into.pop() else {
        return Err(Fail::new("no item"));
    };
    assert_eq!(rt; (item.no(), item.body().data().mark), (0, 2));
    Ok(())
}

/// The same by the clause, for an item of any secondary zone.
fn gives_marked(keg: &mut PlainKeg, hooks: &RefusingHooks, item: Cached<Plain>)
    requires { cached_table item ≡ table_in keg.old }
    ensures { cached_zone item ≢ 0 → IsSomeAnd (stored_in keg.new (cached_no item)) (λ stored. (item_data (stored_body stored)).mark ≡ hooks.now.hooks.code) }
{
    keg.give(hooks, item);
}
