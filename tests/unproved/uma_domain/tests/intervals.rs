use super::buckets::{put, put_sealed, two_seats};
use super::working_set::take;
use crate::Domain;
use deed_book::Book;
use std::snapshot::Snapshot;
use std::test::Fail;

#[test]
fn what_a_drain_takes_is_in_the_working_set_of_the_next_trim(rt: HostRuntime) -> Result<(), Fail> {
    let mut book = Book::new(rt.alloc(), 8)?;
    let (clock, _, _) = two_seats(rt.alloc())?;
    let domain = Domain::new(rt.alloc(), &clock, Snapshot::of(&book), 0, 1, false)?;
    put(&rt, rt.alloc(), &domain, &mut book, 0)?;
    put(&rt, rt.alloc(), &domain, &mut book, 1)?;
    // Both came since the beginning, so the trim leaves them.
    assert_eq!(rt; domain.take_trim(&rt, rt.alloc(), &clock)?.len(), 0);
    assert_eq!(rt; (domain.count(&rt), domain.working(&rt)), (2, (2, 2)));
    assert_eq!(rt; domain.take_all(&rt, rt.alloc(), &clock)?.len(), 2);
    assert_eq!(rt; (domain.count(&rt), domain.working(&rt)), (0, (0, 2)));
    put(&rt, rt.alloc(), &domain, &mut book, 2)?;
    assert_eq!(rt; (domain.count(&rt), domain.working(&rt)), (1, (0, 2)));
    // The trim begins the next interval.
    assert_eq!(rt; domain.take_trim(&rt, rt.alloc(), &clock)?.len(), 0);
    assert_eq!(rt; (domain.count(&rt), domain.working(&rt)), (1, (1, 1)));
    Ok(())
}

#[test]
fn a_trim_behind_a_drain_keeps_what_was_used_before_it(rt: HostRuntime) -> Result<(), Fail> {
    let mut book = Book::new(rt.alloc(), 8)?;
    let (clock, mut reader, mut writer) = two_seats(rt.alloc())?;
    let domain = Domain::new(rt.alloc(), &clock, Snapshot::of(&book), 0, 1, true)?;
    clock.enter(&mut reader)?;
    put_sealed(&rt, rt.alloc(), &domain, &mut book, 0, &clock, &mut writer)?;
    put_sealed(&rt, rt.alloc(), &domain, &mut book, 1, &clock, &mut writer)?;
    // The reader may see both items, so the drain leaves them.
    assert_eq!(rt; domain.take_all(&rt, rt.alloc(), &clock)?.len(), 0);
    clock.exit(&mut reader);
    // None was listed at the beginning, and no trim came since: the working set is 2.
    assert_eq!(rt; domain.take_trim(&rt, rt.alloc(), &clock)?.len(), 0);
    assert_eq!(rt; domain.take_trim(&rt, rt.alloc(), &clock)?.len(), 2);
    Ok(())
}

#[test]
fn a_trim_of_an_empty_domain_begins_an_interval(rt: HostRuntime) -> Result<(), Fail> {
    let mut book = Book::new(rt.alloc(), 8)?;
    let (clock, _, _) = two_seats(rt.alloc())?;
    let domain = Domain::new(rt.alloc(), &clock, Snapshot::of(&book), 0, 1, false)?;
    assert_eq!(rt; domain.take_trim(&rt, rt.alloc(), &clock)?.len(), 0);
    assert_eq!(rt; (domain.count(&rt), domain.working(&rt)), (0, (0, 0)));
    let mut share = domain.open_misses(&rt);
    put(&rt, rt.alloc(), &domain, &mut book, 0)?;
    assert_eq!(rt; take(&rt, &domain, &mut share), Some(0));
    assert_eq!(rt; (domain.count(&rt), domain.working(&rt)), (0, (0, 1)));
    assert_eq!(rt; domain.take_trim(&rt, rt.alloc(), &clock)?.len(), 0);
    assert_eq!(rt; (domain.count(&rt), domain.working(&rt)), (0, (0, 0)));
    Ok(())
}
