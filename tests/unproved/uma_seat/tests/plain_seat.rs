ghost use Rattle.std.specs.Prelude.{◌≡◌, ◌≤◌, false, [], IfOk};
ghost use Rattle.deed_book.specs.Book.{book_table};
ghost use Rattle.uma_bucket.specs.Home.{IsHome};
ghost use Rattle.uma_life.specs.Cached.{cached_table, cached_zone, cached_domain};
ghost use Rattle.uma_seat.specs.Seat.{seat_home, seat_smr};

use super::body::{Plain, idle_hooks};
use super::new_ports::new_ports;
use crate::{SeatCache, Seating};
use deed_book::{Book, FailBook};
use smr_clock::{Bare, Clock};
use std::alloc::Global;
use std::snapshot::Snapshot;
use std::sync::Wait;
use std::test::Fail;
use uma_bucket::{Bucket, Shelved};
use uma_life::{Cached, Stored};

/// A seat of domain 0 in a plain zone, with buckets of 4, and the book of its items' numbers.
#[derive(Drop)]
pub(super) struct PlainSeat {
    seat: SeatCache<Plain, Bare>,
    book: Book,
    domains: u8,
    pub ghost home: { seat_home seat ≡ record { book = book_table book; zone = 0; domains = domains } },
    pub ghost plain: { seat_smr seat ≡ false },
    pub ghost no_origin: { (book_table book).origin ≡ [] },
}

/// A cached item of zone 0, of this domain. Such items are of no origin.
pub(super) fn cached<R: Wait>(
    rt: &R,
    alloc: Global,
    book: &mut Book,
    no: u32,
    domain: u8,
) -> Result<Cached<Plain>, Fail>
    requires no_origin { (book_table book.old).origin ≡ [] }
    ensures table { book_table book.new ≡ book_table book.old }
    ensures item_table { IfOk result (λ item. cached_table item ≡ book_table book.old) }
    ensures zone { IfOk result (λ item. cached_zone item ≡ 0) }
    ensures domain { IfOk result (λ item. cached_domain item ≡ domain) }
{
    let stored = Stored::bring(rt, alloc, &idle_hooks(), no)?;
    if !book.is_home(no) {
        return Err(Fail::new("out"));
    }
    let Ok(item) = stored.lend(&idle_hooks(), book.issue(no, 0), domain) else {
        return Err(Fail::new("refused"));
    };
    Ok(item)
}

impl PlainSeat {
    pub fn new(alloc: Global, clock: &Clock<Bare>, domains: u8) -> Result<PlainSeat, Fail>
        requires some { 1 ≤ domains }
        requires few { domains ≤ 4 }
    {
        let book = Book::new(alloc, 32)?;
        let mut fails = FailBook::new(alloc)?;
        let seating = Seating {
            clock: Snapshot::of(clock),
            book: Snapshot::of(&book),
            zone: 0,
            domain: 0,
            domains,
            smr: false,
        };
        let (share, misses) = (fails.new_share(), fails.new_share());
        let ports = new_ports(alloc, clock, &book, domains)?;
        let seat = SeatCache::new(alloc, 4, seating, share, misses, ports)?;
        Ok(PlainSeat {
            seat,
            book,
            domains,
        })
    }

    /// Frees a new item of this domain to the seat, where there is a spare bucket. Answers whether there was.
    pub fn free<R: Wait>(
        &mut self,
        rt: &R,
        alloc: Global,
        no: u32,
        domain: u8,
    ) -> Result<bool, Fail> {
        if self.seat.spare() == 0 || !self.seat.room() || domain >= self.domains {
            return Ok(false);
        }
        let item = cached(rt, alloc, &mut self.book, no, domain)?;
        self.seat.free(item);
        Ok(true)
    }
    /// How many spare buckets there are.
    pub fn spare(&self) -> u32 {
        self.seat.spare()
    }

    /// How many items of other domains were freed.
    pub fn cross(&self) -> u64 {
        self.seat.ledger().cross
    }

    /// The number of the item that an allocation takes.
    pub fn alloc(&mut self) -> Option<u32> {
        self.seat.try_alloc().map(|item| item.no())
    }

    /// The number of an item of another domain that is taken.
    pub fn take_cross(&mut self) -> Option<u32> {
        self.seat.take_cross().map(|item| item.no())
    }

    /// The oldest bucket of the shelf, with its domain.
    pub fn take_oldest(&mut self) -> Option<(u8, Bucket<Plain>)> {
        match self.seat.take_shelf()? {
            Shelved::Plain { domain, bucket } => Some((domain, bucket)),
            _ => None,
        }
    }

    /// The domain of the oldest bucket of the shelf, which is taken, and how many items it has.
    pub fn take_bucket(&mut self) -> Option<(u8, u32)> {
        let (domain, bucket) = self.take_oldest()?;
        Some((domain, bucket.len()))
    }

    /// The oldest bucket of the shelf, with its domain. A new spare takes its place.
    pub fn renew_oldest(&mut self, alloc: Global) -> Result<Option<(u8, Bucket<Plain>)>, Fail> {
        match self.seat.take_shelf() {
            Some(Shelved::Plain { domain, bucket }) => {
                self.seat.add_spare(alloc)?;
                Ok(Some((domain, bucket)))
            }
            _ => Ok(None),
        }
    }

    /// Takes the oldest bucket from the shelf and puts it there again.
    pub fn reshelve(&mut self) {
        if let Some(shelved) = self.seat.take_shelf() {
            self.seat.put_shelf(shelved);
        }
    }

    /// Takes an item and puts it back. Where there is none the oldest bucket of the shelf is the allocation bucket.
    pub fn refill(&mut self) -> Option<u32> {
        let Some(item) = self.seat.try_alloc() else {
            if let Some(Shelved::Plain { bucket, .. }) = self.seat.take_shelf() {
                self.seat.refill(bucket);
            }
            return None;
        };
        let no = item.no();
        self.seat.put_back(item);
        Some(no)
    }
}
