ghost use Rattle.std.specs.Prelude.{◌≡◌, IfSome, IfOk, All};
ghost use Rattle.uma_life.specs.Cached.{cached_table};
ghost use Rattle.uma_life.specs.Live.{live_table};
ghost use Rattle.uma_bucket.specs.Bucket.{items_of};
ghost use Rattle.uma_keg.specs.Keg.{table_in};

use crate::tests::body::Plain;
use crate::tests::calls::{PlainKeg, adds_by_the_last, builds_last, fetches, gives_last};
use crate::tests::refusing::no_refusal;
use crate::{Census, FetchAsk, KegCounts};
use deed_book::Memory;
use std::alloc::Global;
use std::sync::Wait;
use std::test::Fail;
use uma_bucket::Bucket;
use uma_life::{Live, Lives, TallySum};

/// Fetches item 0 for zone 0, items 1 and 2 for zone 1, item 3 for zone 0, and items 4 and 5 for zone 1.
fn fetches_in_turn<R: Wait>(
    rt: &R,
    alloc: Global,
    keg: &mut PlainKeg,
    into: &mut Bucket<Plain>,
) -> Result<bool, Memory>
    ensures table { table_in keg.new ≡ table_in keg.old }
    ensures of_keg { All (λ item. cached_table item ≡ table_in keg.old) (items_of into.old) → All (λ item. cached_table item ≡ table_in keg.new) (items_of into.new) }
{
    for (zone, most) in [(0, 1), (1, 2), (0, 1), (1, 2)] {
        let ask = FetchAsk {
            zone,
            most,
            reserve: false,
            domain: 1,
        };
        if fetches(rt, alloc, keg, &no_refusal(), ask, into)? != Some(Ok(most)) {
            return Ok(false);
        }
    }
    Ok(true)
}

/// Builds the four last items of the bucket, the last one first.
fn builds_four(
    alloc: Global,
    keg: &PlainKeg,
    from: &mut Bucket<Plain>,
) -> Result<Lives<Plain>, Fail>
    requires cached { All (λ item. cached_table item ≡ table_in keg.now) (items_of from.old) }
    ensures cached { All (λ item. cached_table item ≡ table_in keg.now) (items_of from.new) }
    ensures live { IfOk result (All (λ item. live_table item ≡ table_in keg.now)) }
{
    let mut lives = Vec::new(alloc);
    builds_last(keg, &no_refusal(), from, &mut lives)?;
    builds_last(keg, &no_refusal(), from, &mut lives)?;
    builds_last(keg, &no_refusal(), from, &mut lives)?;
    builds_last(keg, &no_refusal(), from, &mut lives)?;
    Ok(Lives::from_vec(lives))
}

/// A census of live items of the keg, which are of the keg when they are back.
fn counts_lent(
    keg: &mut PlainKeg,
    alloc: Global,
    lives: Lives<Plain>,
) -> Option<(Census, Lives<Plain>)>
    requires { All (λ item. live_table item ≡ table_in keg.old) lives }
    ensures { IfSome result (λ (census, back). All (λ item. live_table item ≡ table_in keg.new) back) }
{
    match keg.census(alloc, lives) {
        Ok((census, back)) => Some((census, back)),
        Err(_) => None,
    }
}

/// The last one of live items of the keg.
fn pops_live(keg: &PlainKeg, lives: Lives<Plain>) -> Option<Live<Plain>>
    requires { All (λ item. live_table item ≡ table_in keg.now) lives }
    ensures { IfSome result (λ item. live_table item ≡ table_in keg.now) }
{
    let mut items = lives.into_vec();
    items.pop()
}

/// Ends the use of the last live item and gives it back to the keg. Answers its number.
fn finishes_last(keg: &mut PlainKeg, lives: Lives<Plain>) -> Option<u32>
    requires { All (λ item. live_table item ≡ table_in keg.old) lives }
{
    let live = pops_live(keg, lives)?;
    let item = live.finish(&no_refusal());
    let no = item.no();
    keg.give(&no_refusal(), item);
    Some(no)
}

/// How many live items of a list are of a zone.
fn lent_of(items: &[Live<Plain>], zone: u8) -> usize {
    items.iter().filter(|item| item.zone() == zone).count()
}

/// Zone 0 has items 0 and 3 outside, and zone 1 items 2, 4 and 5. All but item 0 are lent. Item 1, which was given back,
/// passed the hooks of zone 1, and two items never left. Item 2 goes back to the keg after the census.
#[test]
fn a_census_gives_live_items_back(rt: HostRuntime) -> Result<(), Fail> {
    let (mut keg, mut rights) = PlainKeg::new(rt.alloc(), 1024, 2, 1, no_refusal())?;
    let mut cached = Bucket::make(rt.alloc(), 8)?;
    assert_eq!(rt; adds_by_the_last(&mut keg, &mut rights, 0), Some(0));
    assert_eq!(rt; adds_by_the_last(&mut keg, &mut rights, 4), Some(1));
    assert!(rt; fetches_in_turn(&rt, rt.alloc(), &mut keg, &mut cached)?);
    let lives = builds_four(rt.alloc(), &keg, &mut cached)?;
    assert_eq!(rt; gives_last(&mut keg, &no_refusal(), &mut cached), Some(1));
    let Some((census, back)) = counts_lent(&mut keg, rt.alloc(), lives) else {
        return Err(Memory)?;
    };
    let counts = KegCounts {
        slabs: 2,
        cap: 2,
        made: 2,
        free: 3,
        per_slab: 4,
        reserve: 1,
    };
    let mut tally = TallySum {
        keg_inits: 3,
        ..TallySum::none()
    };
    tally.zones[1].inits = 1;
    tally.zones[1].finis = 1;
    assert_eq!(rt; census.counts(), counts);
    assert_eq!(rt; census.outs(), [2, 3, 0, 0, 0, 0, 0, 0]);
    assert_eq!(rt; *census.tally(), tally);
    let items = back.as_slice();
    let seen = items.iter().map(|item| (item.no(), item.zone()));
    assert!(rt; seen.eq([(5, 1), (4, 1), (3, 0), (2, 1)]));
    for zone in 0..8 {
        assert!(rt; lent_of(items, zone) as u64 <= census.outs()[zone as usize]);
    }
    assert_eq!(rt; finishes_last(&mut keg, back), Some(2));
    assert_eq!(rt; (keg.out(0), keg.out(1), keg.counts().free), (2, 2, 4));
    Ok(())
}
