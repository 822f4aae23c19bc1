ghost use Rattle.std.specs.Prelude.{◌≡◌, true};
ghost use Rattle.deed_book.specs.FailShare.{share_table};
ghost use Rattle.smr_clock.specs.Belongs.{clock_id};
ghost use Rattle.uma_domain.specs.Domain.{domain_identity};

use super::body::{Plain, hooks};
use super::buckets::{put_loose, put_sealed, two_seats, two_seats_within};
use crate::Domain;
use deed_book::{Book, FailShare};
use smr_clock::{Bare, Clock};
use std::snapshot::Snapshot;
use std::sync::Wait;
use std::test::Fail;
use uma_life::Body;

/// The number of the item of the ripe bucket that is taken.
fn take_ripe<R: Wait>(
    rt: &R,
    domain: &Domain<Plain, Bare>,
    clock: &Clock<Bare>,
    share: &mut FailShare,
) -> Option<u32>
    requires smr { (domain_identity domain.now).smr ≡ true }
    requires here { clock_id clock.now ≡ (domain_identity domain.now).clock }
    requires share { share_table share.old ≡ (domain_identity domain.now).misses }
    ensures { share_table share.new ≡ share_table share.old }
{
    let (mut bucket, _note) = domain.take_ripe(rt, clock, share)?.into_cached(&hooks());
    Some(bucket.pop()?.no())
}

#[test]
fn the_oldest_sealed_bucket_is_taken_once_no_section_is_before_it(
    rt: HostRuntime,
) -> Result<(), Fail> {
    let mut book = Book::new(rt.alloc(), 8)?;
    let (clock, mut reader, mut writer) = two_seats(rt.alloc())?;
    let domain = Domain::new(rt.alloc(), &clock, Snapshot::of(&book), 0, 1, true)?;
    let mut share = domain.open_misses(&rt);
    put_sealed(&rt, rt.alloc(), &domain, &mut book, 0, &clock, &mut writer)?;
    put_sealed(&rt, rt.alloc(), &domain, &mut book, 1, &clock, &mut writer)?;
    clock.enter(&mut reader)?;
    put_sealed(&rt, rt.alloc(), &domain, &mut book, 2, &clock, &mut writer)?;
    assert_eq!(rt; take_ripe(&rt, &domain, &clock, &mut share), Some(0));
    assert_eq!(rt; take_ripe(&rt, &domain, &clock, &mut share), Some(1));
    assert_eq!(rt; take_ripe(&rt, &domain, &clock, &mut share), None);
    assert_eq!(rt; domain.count(&rt), 1);
    clock.exit(&mut reader);
    assert_eq!(rt; take_ripe(&rt, &domain, &clock, &mut share), Some(2));
    assert_eq!(rt; (domain.count(&rt), domain.working(&rt)), (0, (0, 3)));
    Ok(())
}

#[test]
fn as_many_loose_buckets_are_sealed_as_the_window_has_room_for(
    rt: HostRuntime,
) -> Result<(), Fail> {
    let mut book = Book::new(rt.alloc(), 8)?;
    let (clock, _, mut writer) = two_seats_within(rt.alloc(), 4)?;
    let domain = Domain::new(rt.alloc(), &clock, Snapshot::of(&book), 0, 1, true)?;
    assert_eq!(rt; domain.seal_loose(&rt, &clock, &mut writer), 0);
    put_loose(&rt, rt.alloc(), &domain, &mut book, 0)?;
    put_loose(&rt, rt.alloc(), &domain, &mut book, 1)?;
    put_loose(&rt, rt.alloc(), &domain, &mut book, 2)?;
    // The write hand goes from 1 to 5. A third time two would be more than 4 above the read hand.
    assert_eq!(rt; domain.seal_loose(&rt, &clock, &mut writer), 2);
    assert_eq!(rt; domain.seal_loose(&rt, &clock, &mut writer), 0);
    assert_eq!(rt; clock.hands(&mut writer), (1, 5));
    // The polls of a drain bring the read hand up.
    assert_eq!(rt; domain.take_all(&rt, rt.alloc(), &clock)?.len(), 2);
    assert_eq!(rt; (domain.count(&rt), clock.hands(&mut writer)), (1, (5, 5)));
    assert_eq!(rt; domain.seal_loose(&rt, &clock, &mut writer), 1);
    assert_eq!(rt; domain.take_all(&rt, rt.alloc(), &clock)?.len(), 1);
    assert_eq!(rt; domain.seal_loose(&rt, &clock, &mut writer), 0);
    assert_eq!(rt; (domain.count(&rt), clock.hands(&mut writer)), (0, (7, 7)));
    Ok(())
}
