ghost use Rattle.std.specs.Prelude.{◌≡◌, true, [], IfOk};
ghost use Rattle.deed_book.specs.Book.{book_table};
ghost use Rattle.smr_clock.specs.Belongs.{IsPassOf, clock_id};
ghost use Rattle.uma_seat.specs.Seat.{seat_home, seat_smr, seat_clock};

use super::body::{Plain, idle_hooks};
use super::clock::two_seats;
use super::new_ports::new_ports;
use super::plain_seat::cached;
use crate::{SeatCache, Seating};
use deed_book::{Book, FailBook};
use smr_clock::{Bare, Clock, Pass};
use std::alloc::Global;
use std::snapshot::Snapshot;
use std::sync::Wait;
use std::test::Fail;
use uma_bucket::Shelved;

/// A seat of one domain, whose readers hold no lock, with buckets of 4.
fn smr_seat(alloc: Global, clock: &Clock<Bare>, book: &Book) -> Result<SeatCache<Plain, Bare>, Fail>
    ensures home { IfOk result (λ seat. seat_home seat ≡ record { book = book_table book.now; zone = 0; domains = 1 }) }
    ensures smr { IfOk result (λ seat. seat_smr seat ≡ true) }
    ensures clock { IfOk result (λ seat. seat_clock seat ≡ clock_id clock.now) }
{
    let mut fails = FailBook::new(alloc)?;
    let seating = Seating {
        clock: Snapshot::of(clock),
        book: Snapshot::of(book),
        zone: 0,
        domain: 0,
        domains: 1,
        smr: true,
    };
    let (share, misses) = (fails.new_share(), fails.new_share());
    let ports = new_ports(alloc, clock, book, 1)?;
    Ok(SeatCache::new(alloc, 4, seating, share, misses, ports)?)
}

/// Frees an item to the seat.
fn free<R: Wait>(
    rt: &R,
    alloc: Global,
    book: &mut Book,
    seat: &mut SeatCache<Plain, Bare>,
    clock: &Clock<Bare>,
    pass: &mut Pass<Bare>,
    no: u32,
) -> Result<(), Fail>
    requires home { seat_home seat.old ≡ record { book = book_table book.old; zone = 0; domains = 1 } }
    requires smr { seat_smr seat.old ≡ true }
    requires clock { seat_clock seat.old ≡ clock_id clock.now }
    requires here { IsPassOf clock.now pass.old }
    requires no_origin { (book_table book.old).origin ≡ [] }
    ensures home { seat_home seat.new ≡ record { book = book_table book.new; zone = 0; domains = 1 } }
    ensures smr { seat_smr seat.new ≡ true }
    ensures clock { seat_clock seat.new ≡ clock_id clock.now }
    ensures here { IsPassOf clock.now pass.new }
    ensures no_origin { (book_table book.new).origin ≡ [] }
{
    let Ok(item) = cached(rt, alloc, book, no, 0)?.build(&idle_hooks(), 0) else {
        return Err(Fail::new("refused"));
    };
    if seat.spare() == 0 || !seat.room() {
        return Err(Fail::new("no spare"));
    }
    seat.free_smr(clock, pass, item);
    Ok(())
}

/// Whether the oldest bucket on the shelf is sealed. It is taken, and a spare stands in its place.
fn is_oldest_sealed(alloc: Global, seat: &mut SeatCache<Plain, Bare>) -> Result<bool, Fail>
    ensures home { seat_home seat.new ≡ seat_home seat.old }
    ensures smr { seat_smr seat.new ≡ seat_smr seat.old }
    ensures clock { seat_clock seat.new ≡ seat_clock seat.old }
{
    let Some(oldest) = seat.take_shelf() else {
        return Err(Fail::new("nothing shelved"));
    };
    seat.add_spare(alloc)?;
    match oldest {
        Shelved::Sealed { .. } => Ok(true),
        _ => Ok(false),
    }
}

#[test]
fn the_third_full_bucket_stays_loose_while_the_window_is_used_up(
    rt: HostRuntime,
) -> Result<(), Fail> {
    let mut book = Book::new(rt.alloc(), 16)?;
    let (clock, mut reader, mut writer) = two_seats(rt.alloc(), 1)?;
    let mut seat = smr_seat(rt.alloc(), &clock, &book)?;
    clock.enter(&mut reader)?;
    for no in 0..12 {
        free(
            &rt,
            rt.alloc(),
            &mut book,
            &mut seat,
            &clock,
            &mut writer,
            no,
        )?;
        if no % 4 == 3 {
            assert_eq!(rt; is_oldest_sealed(rt.alloc(), &mut seat)?, no < 8);
        }
    }
    assert!(rt; seat.try_alloc().is_none());
    assert_eq!(rt; (seat.ledger().frees, seat.spare()), (12, 2));
    clock.exit(&mut reader);
    Ok(())
}

#[test]
fn a_free_seals_by_the_write_hand_though_its_pass_is_behind(rt: HostRuntime) -> Result<(), Fail> {
    let mut book = Book::new(rt.alloc(), 4)?;
    let (clock, mut ahead, mut behind) = two_seats(rt.alloc(), 1)?;
    let mut seat = smr_seat(rt.alloc(), &clock, &book)?;
    clock.advance(&mut ahead)?;
    // The mark of this section is 3. The pass that frees has seen 1, by which the goal would be 3 too.
    clock.enter(&mut ahead)?;
    for no in 0..4 {
        free(
            &rt,
            rt.alloc(),
            &mut book,
            &mut seat,
            &clock,
            &mut behind,
            no,
        )?;
    }
    assert_eq!(rt; clock.hands(&mut behind), (1, 5));
    let Some(Shelved::Sealed { bucket, .. }) = seat.take_shelf() else {
        panic!(rt; "not sealed")
    };
    let Err(bucket) = bucket.try_open(&clock) else {
        panic!(rt; "a section may see it")
    };
    clock.exit(&mut ahead);
    assert!(rt; bucket.try_open(&clock).is_ok());
    Ok(())
}
