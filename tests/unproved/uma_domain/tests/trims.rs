use super::buckets::{put_sealed, two_seats};
use crate::Domain;
use deed_book::Book;
use std::snapshot::Snapshot;
use std::test::Fail;

#[test]
fn a_trim_stops_before_an_unripe_bucket_or_passes_it(rt: HostRuntime) -> Result<(), Fail> {
    let mut book = Book::new(rt.alloc(), 8)?;
    let (clock, mut reader, mut writer) = two_seats(rt.alloc())?;
    let domain = Domain::new(rt.alloc(), &clock, Snapshot::of(&book), 0, 1, true)?;
    clock.enter(&mut reader)?;
    put_sealed(&rt, rt.alloc(), &domain, &mut book, 0, &clock, &mut writer)?;
    put_sealed(&rt, rt.alloc(), &domain, &mut book, 1, &clock, &mut writer)?;
    // The working set is 2: the trim stops before the first, and doesn't poll it.
    assert_eq!(rt; domain.take_trim(&rt, rt.alloc(), &clock)?.len(), 0);
    // Now it is 0: the trim polls both, and passes them, since the reader may see their items.
    assert_eq!(rt; domain.take_trim(&rt, rt.alloc(), &clock)?.len(), 0);
    assert_eq!(rt; (domain.count(&rt), domain.working(&rt)), (2, (2, 2)));
    clock.exit(&mut reader);
    assert_eq!(rt; domain.take_trim(&rt, rt.alloc(), &clock)?.len(), 2);
    assert_eq!(rt; domain.count(&rt), 0);
    Ok(())
}
