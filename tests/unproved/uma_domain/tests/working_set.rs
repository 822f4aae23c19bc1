ghost use Rattle.std.specs.Prelude.{◌≡◌, false};
ghost use Rattle.deed_book.specs.FailShare.{share_table};
ghost use Rattle.uma_domain.specs.Domain.{domain_identity};

use super::body::Plain;
use super::buckets::{put, two_seats};
use crate::{Domain, TakenBucket};
use deed_book::{Book, FailShare};
use smr_clock::Bare;
use std::snapshot::Snapshot;
use std::sync::Wait;
use std::test::Fail;
use uma_life::Body;

/// The number of the item of the bucket that is taken.
pub(super) fn take<R: Wait>(
    rt: &R,
    domain: &Domain<Plain, Bare>,
    share: &mut FailShare,
) -> Option<u32>
    requires plain { (domain_identity domain.now).smr ≡ false }
    requires share { share_table share.old ≡ (domain_identity domain.now).misses }
    ensures { share_table share.new ≡ share_table share.old }
{
    let mut bucket = domain.take_plain(rt, share)?;
    Some(bucket.pop()?.no())
}

#[test]
fn a_day_has_a_working_set(rt: HostRuntime) -> Result<(), Fail> {
    let mut book = Book::new(rt.alloc(), 8)?;
    let (clock, _, _) = two_seats(rt.alloc())?;
    let domain = Domain::new(rt.alloc(), &clock, Snapshot::of(&book), 0, 1, false)?;
    let mut share = domain.open_misses(&rt);
    put(&rt, rt.alloc(), &domain, &mut book, 0)?;
    put(&rt, rt.alloc(), &domain, &mut book, 1)?;
    put(&rt, rt.alloc(), &domain, &mut book, 2)?;
    assert_eq!(rt; (domain.count(&rt), domain.working(&rt)), (3, (0, 3)));
    // All three came since the beginning, so the trim leaves them.
    assert_eq!(rt; domain.take_trim(&rt, rt.alloc(), &clock)?.len(), 0);
    assert_eq!(rt; domain.working(&rt), (3, 3));
    // The newest first.
    assert_eq!(rt; take(&rt, &domain, &mut share), Some(2));
    put(&rt, rt.alloc(), &domain, &mut book, 3)?;
    assert_eq!(rt; (domain.count(&rt), domain.working(&rt)), (3, (2, 3)));
    // The working set is 1, so two of three are given back, the oldest.
    let mut trimmed = domain.take_trim(&rt, rt.alloc(), &clock)?;
    assert_eq!(rt; trimmed.len(), 2);
    let Some(TakenBucket::Plain { mut bucket }) = trimmed.pop() else {
        panic!(rt; "no plain bucket")
    };
    assert_eq!(rt; bucket.pop().map(|item| item.no()), Some(0));
    assert_eq!(rt; (domain.count(&rt), domain.working(&rt)), (1, (1, 1)));
    assert_eq!(rt; take(&rt, &domain, &mut share), Some(3));
    assert_eq!(rt; take(&rt, &domain, &mut share), None);
    assert_eq!(rt; (domain.count(&rt), domain.working(&rt)), (0, (0, 1)));
    Ok(())
}
