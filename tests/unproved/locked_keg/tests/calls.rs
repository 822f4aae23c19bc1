ghost use Rattle.std.specs.Prelude.{◌≡◌, ◌≤◌, [], All, Some, IfOk, IfSome};
ghost use Rattle.deed_book.specs.Book.{book_table};
ghost use Rattle.deed_book.specs.Deed.{deed_table};
ghost use Rattle.deed_book.specs.FailShare.{share_table, causes_in};
ghost use Rattle.uma_seat.specs.Seat.{seat_fails, top_of};
ghost use Rattle.uma_keg.specs.Keg.{rights_in};
ghost use Rattle.locked_keg.specs.FailBooks.{table_at};
ghost use Rattle.locked_keg.specs.LockedKeg.{keg_in, fails_in};

use super::marks::{Marks, MarksKeg};
use crate::LockedKeg;
use deed_book::{Deed, FailBook, FailShare, Memory};
use smr_clock::{Bare, Clock};
use std::alloc::Global;
use std::snapshot::Snapshot;
use std::sync::Wait;
use std::test::Fail;
use uma_bucket::{Inbox, InboxKey, Port};
use uma_item::{Item, TrailHooks};
use uma_keg::{FetchAsk, FetchRefused, Keg};
use uma_seat::{SeatCache, Seating};

pub(super) fn marks() -> TrailHooks<Marks> {
    TrailHooks::with_stays(Marks)
}

/// The answer of a fetch; where memory is wanting the test stops.
pub(super) fn told(answer: Result<u32, FetchRefused>) -> Result<Result<u32, FetchRefused>, Memory> {
    match answer {
        Err(FetchRefused::Memory) => Err(Memory),
        other => Ok(other),
    }
}

/// What came from behind the lock of a new keg, of two domains and items of 1,024 bytes, four a slab, with its rights.
pub(super) fn new_keg<R: Wait>(
    rt: &R,
    alloc: Global,
    slabs: u32,
) -> Result<(MarksKeg, Vec<Deed>), Fail>
    ensures { IfOk result (λ (locked, rights). All (λ right. deed_table right ≡ book_table (rights_in (keg_in locked))) rights.items) }
{
    let (keg, rights) = Keg::new(alloc, 1024, slabs, 0, marks())?;
    let lock = LockedKeg::new(alloc, keg)?.lock_up(alloc, 2)?;
    Ok((lock.into_inner(rt), rights))
}

/// Adds a zone by the last right, and answers its index and its share.
pub(super) fn adds_by_the_last(
    locked: &mut MarksKeg,
    rights: &mut Vec<Deed>,
    limit: u64,
) -> Option<(u8, FailShare)>
    requires { All (λ right. deed_table right ≡ book_table (rights_in (keg_in locked.old))) rights.old.items }
    ensures rights { All (λ right. deed_table right ≡ book_table (rights_in (keg_in locked.new))) rights.new.items }
    ensures empty { IfSome result (λ added. causes_in added.1 ≡ []) }
    ensures mine { IfSome result (λ added. table_at (fails_in locked.new) added.0 ≡ Some (share_table added.1)) }
{
    let right = rights.pop()?;
    Some(locked.add_zone(right, limit))
}

/// A seat of a zone with buckets of 4, over a share of the zone's book.
pub(super) fn new_seat(
    alloc: Global,
    locked: &MarksKeg,
    zone: u8,
    share: FailShare,
) -> Result<SeatCache<Item<u32>, Bare>, Fail>
    requires { causes_in share ≡ [] }
    ensures fails { IfOk result (λ seat. seat_fails seat ≡ share_table share) }
    ensures empty { IfOk result (λ seat. (top_of seat).items ≡ []) }
    ensures room { IfOk result (λ seat. 4 ≤ (top_of seat).room) }
{
    let (clock, _passes) = Clock::<Bare>::new(alloc, 2, 1, 4)?;
    let mut misses = FailBook::new(alloc)?;
    let seating = Seating {
        clock: Snapshot::of(&clock),
        book: locked.keg.book(),
        zone,
        domain: 0,
        domains: 2,
        smr: false,
    };
    let key = InboxKey {
        clock: Snapshot::of(&clock),
        book: locked.keg.book(),
        zone,
        domains: 2,
    };
    let ports = two_ports(alloc, &key)?;
    Ok(SeatCache::new(
        alloc,
        4,
        seating,
        share,
        misses.new_share(),
        ports,
    )?)
}

// Two ports of an inbox, which no test pushes by.
fn two_ports(
    alloc: Global,
    key: &InboxKey<Bare>,
) -> Result<Vec<Port<Item<u32>, Bare>>, Fail> {
    let (inbox, mut taker) = Inbox::<Item<u32>, Bare>::new(alloc, key)?;
    let mut ports = Vec::new(alloc);
    for _ in 0..2 {
        ports.push(inbox.port(&mut taker))?;
    }
    Ok(ports)
}

/// Fetches four items for a zone, where it exists and the seat's ledger has room. Stops where memory is wanting.
pub(super) fn fetches<R: Wait>(
    rt: &R,
    alloc: Global,
    locked: &mut MarksKeg,
    zone: u8,
    seat: &mut SeatCache<Item<u32>, Bare>,
) -> Result<Option<Result<u32, FetchRefused>>, Memory>
    requires mine { table_at (fails_in locked.old) zone ≡ Some (seat_fails seat.old) }
    requires empty { (top_of seat.old).items ≡ [] }
    requires room { 4 ≤ (top_of seat.old).room }
{
    let ask = FetchAsk {
        zone,
        most: 4,
        reserve: false,
        domain: 0,
    };
    if !locked.has_zone(zone) || !seat.ledger().room() {
        return Ok(None);
    }
    Ok(Some(told(locked.fetch(rt, alloc, &marks(), ask, seat))?))
}
