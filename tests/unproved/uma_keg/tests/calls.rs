//! Calls that a test makes of a keg, and what it needs for them.

ghost use Rattle.std.specs.Prelude.{◌≡◌, IfSome, All};
ghost use Rattle.deed_book.specs.Book.{book_table};
ghost use Rattle.deed_book.specs.Deed.{deed_table};
ghost use Rattle.uma_life.specs.Cached.{cached_table};
ghost use Rattle.uma_life.specs.Live.{live_table};
ghost use Rattle.uma_bucket.specs.Bucket.{items_of};
ghost use Rattle.uma_keg.specs.Keg.{table_in, rights_in};

use crate::tests::body::Plain;
use crate::tests::refusing::RefusingHooks;
use crate::{FetchAsk, FetchRefused, Keg};
use deed_book::{Deed, Memory};
use std::alloc::Global;
use std::sync::Wait;
use std::test::Fail;
use uma_bucket::Bucket;
use uma_life::{Cached, Live};
use zone_stats::Refusal;

pub type PlainKeg = Keg<Plain, RefusingHooks>;

/// The answer of a fetch, or of a call that brings slabs in; where memory is wanting the test stops.
pub fn told<T: Drop>(answer: Result<T, FetchRefused>) -> Result<Result<T, FetchRefused>, Memory> {
    match answer {
        Err(FetchRefused::Memory) => Err(Memory),
        other => Ok(other),
    }
}

pub fn refused(refusal: Refusal) -> Option<Result<u32, FetchRefused>> {
    Some(Err(FetchRefused::Refused { refusal }))
}

/// Adds a zone by the last right.
pub fn adds_by_the_last(keg: &mut PlainKeg, rights: &mut Vec<Deed>, limit: u64) -> Option<u8>
    requires { All (λ right. deed_table right ≡ book_table (rights_in keg.old)) rights.old.items }
    ensures rights { All (λ right. deed_table right ≡ book_table (rights_in keg.new)) rights.new.items }
    ensures table { table_in keg.new ≡ table_in keg.old }
{
    let right = rights.pop()?;
    Some(keg.add_zone(right, limit))
}

/// Fetches, where the zone exists and the bucket has room. The bucket's items are of the keg then, if they were before.
/// Stops where memory is wanting.
pub fn fetches<R: Wait>(
    rt: &R,
    alloc: Global,
    keg: &mut PlainKeg,
    hooks: &RefusingHooks,
    ask: FetchAsk,
    into: &mut Bucket<Plain>,
) -> Result<Option<Result<u32, FetchRefused>>, Memory>
    ensures table { table_in keg.new ≡ table_in keg.old }
    ensures of_keg { All (λ item. cached_table item ≡ table_in keg.old) (items_of into.old) → All (λ item. cached_table item ≡ table_in keg.new) (items_of into.new) }
{
    if ask.zone > 7 || !keg.has_zone(ask.zone) || ask.most == 0 {
        return Ok(None);
    }
    if into.size() - into.len() < ask.most {
        return Ok(None);
    }
    Ok(Some(told(keg.fetch(rt, alloc, hooks, ask, into))?))
}

/// Takes the last item of a bucket whose items are of the keg.
fn pops(keg: &PlainKeg, from: &mut Bucket<Plain>) -> Option<Cached<Plain>>
    requires { All (λ item. cached_table item ≡ table_in keg.now) (items_of from.old) }
    ensures rest { All (λ item. cached_table item ≡ table_in keg.now) (items_of from.new) }
    ensures item { IfSome result (λ item. cached_table item ≡ table_in keg.now) }
{
    from.pop()
}

/// Gives the last item of the bucket back, and answers its number.
pub fn gives_last(
    keg: &mut PlainKeg,
    hooks: &RefusingHooks,
    from: &mut Bucket<Plain>,
) -> Option<u32>
    requires { All (λ item. cached_table item ≡ table_in keg.old) (items_of from.old) }
    ensures table { table_in keg.new ≡ table_in keg.old }
    ensures of_keg { All (λ item. cached_table item ≡ table_in keg.new) (items_of from.new) }
{
    let item = pops(keg, from)?;
    let no = item.no();
    keg.give(hooks, item);
    Some(no)
}

/// Builds the last item of the bucket, and puts it at the end of the live ones.
pub fn builds_last(
    keg: &PlainKeg,
    hooks: &RefusingHooks,
    from: &mut Bucket<Plain>,
    lives: &mut Vec<Live<Plain>>,
) -> Result<(), Fail>
    requires cached { All (λ item. cached_table item ≡ table_in keg.now) (items_of from.old) }
    requires live { All (λ item. live_table item ≡ table_in keg.now) lives.old.items }
    ensures cached { All (λ item. cached_table item ≡ table_in keg.now) (items_of from.new) }
    ensures live { All (λ item. live_table item ≡ table_in keg.now) lives.new.items }
{
    let Some(item) = pops(keg, from) else {
        return Err(Fail::new("no item"));
    };
    let Ok(live) = item.build(hooks, 0) else {
        return Err(Fail::new("ctor refused"));
    };
    lives.push(live)?;
    Ok(())
}
