use super::body::Plain;
use super::clock::two_seats;
use super::new_ports::new_ports;
use crate::{FetchEnd, SeatCache, Seating};
use deed_book::{Book, FailBook};
use smr_clock::{Bare, Clock};
use std::alloc::Global;
use std::snapshot::Snapshot;
use std::test::Fail;
use zone_stats::Refusal;

/// A seat whose fetches are listed in this book.
fn seat_of(
    alloc: Global,
    clock: &Clock<Bare>,
    fails: &mut FailBook,
) -> Result<SeatCache<Plain, Bare>, Fail> {
    let book = Book::new(alloc, 8)?;
    let seating = Seating {
        clock: Snapshot::of(clock),
        book: Snapshot::of(&book),
        zone: 0,
        domain: 0,
        domains: 1,
        smr: false,
    };
    let (share, misses) = (fails.new_share(), fails.new_share());
    let ports = new_ports(alloc, clock, &book, 1)?;
    Ok(SeatCache::new(alloc, 4, seating, share, misses, ports)?)
}

#[test]
fn only_a_fetch_that_was_refused_is_counted_and_kept(rt: HostRuntime) -> Result<(), Fail> {
    let (clock, _, _) = two_seats(rt.alloc(), 1)?;
    let mut fails = FailBook::new(rt.alloc())?;
    let mut seat = seat_of(rt.alloc(), &clock, &mut fails)?;
    seat.count_end(&mut fails, FetchEnd::Gave { count: 4 });
    seat.count_end(&mut fails, FetchEnd::Memory);
    assert_eq!(rt; (seat.ledger().requests, seat.ledger().turned), (0, 0));
    assert_eq!(rt; seat.ledger().last, None);
    let full = Refusal::Full { slabs: 1, made: 1 };
    seat.count_end(&mut fails, FetchEnd::Refused { refusal: full });
    assert_eq!(rt; (seat.ledger().requests, seat.ledger().turned), (1, 1));
    assert_eq!(rt; seat.ledger().last, Some(full));
    Ok(())
}
