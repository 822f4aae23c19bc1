ghost use Rattle.std.specs.Prelude.{◌≡◌, ◌≤◌, ◌<◌, ◌^◌, [], IfOk};
ghost use Rattle.deed_book.specs.Book.{book_table};
ghost use Rattle.smr_clock.specs.Belongs.{IsPassOf, clock_id};
ghost use Rattle.uma_life.specs.Ticket.{ticket_table, ticket_zone, ticket_domain};
ghost use Rattle.uma_life.specs.Cached.{cached_ticket};
ghost use Rattle.uma_zone.specs.Domains.{IsSeatOf, domains_home, domains_clock};

use super::body::{Plain, idle_hooks};
use super::clock::two_seats;
use crate::domains::ZoneDomains;
use deed_book::{Book, FailBook, Memory};
use smr_clock::{Bare, Clock, Pass};
use smr_core::Phase;
use std::alloc::Global;
use std::sync::Wait;
use std::test::Fail;
use uma_bucket::{Shelved, Sums};
use uma_life::{Cached, Stored};
use uma_seat::SeatCache;
use zone_stats::SeatLedger;

/// A zone with a seat that has buckets of 4, the seat's own pass, and another pass, of a reader.
#[derive(Drop)]
pub(super) struct SeatedZone {
    domains: ZoneDomains<Plain, Bare>,
    seat: SeatCache<Plain, Bare>,
    book: Book,
    clock: Clock<Bare>,
    pass: Pass<Bare>,
    reader: Pass<Bare>,
    smr: bool,
    pub ghost seated: { IsSeatOf domains seat },
    pub ghost of_book: { (domains_home domains).book ≡ book_table book },
    pub ghost of_zone: { (domains_home domains).zone ≡ 0 },
    pub ghost of_clock: { domains_clock domains ≡ clock_id clock },
    pub ghost of_kind: { seat.seating.smr ≡ smr },
    pub ghost pass_here: { IsPassOf clock pass },
    pub ghost reader_here: { IsPassOf clock reader },
    pub ghost no_origin: { (book_table book).origin ≡ [] },
}

/// A cached item of zone 0, of this domain. Such items are of no origin.
fn cached<R: Wait>(
    rt: &R,
    alloc: Global,
    book: &mut Book,
    no: u32,
    domain: u8,
) -> Result<Cached<Plain>, Fail>
    requires no_origin { (book_table book.old).origin ≡ [] }
    ensures table { book_table book.new ≡ book_table book.old }
    ensures ticket { IfOk result (λ item. (ticket_table (cached_ticket item) ≡ book_table book.old) × (ticket_zone (cached_ticket item) ≡ 0) × (ticket_domain (cached_ticket item) ≡ domain)) }
{
    let stored = Stored::bring(rt, alloc, &idle_hooks(), no)?;
    if !book.is_home(no) {
        return Err(Fail::new("out"));
    }
    let Ok(item) = stored.lend(&idle_hooks(), book.issue(no, 0), domain) else {
        return Err(Fail::new("refused"));
    };
    Ok(item)
}

impl SeatedZone {
    /// A zone of so many domains, with a seat of domain 0.
    pub fn new<R: Wait>(rt: &R, alloc: Global, domains: u8, smr: bool) -> Result<SeatedZone, Fail>
        requires some { 1 ≤ domains }
        requires few { domains ≤ 4 }
    {
        SeatedZone::in_domain(rt, alloc, domains, smr, 0)
    }

    /// A zone of so many domains, with a seat of this one.
    pub fn in_domain<R: Wait>(
        rt: &R,
        alloc: Global,
        domains: u8,
        smr: bool,
        own: u8,
    ) -> Result<SeatedZone, Fail>
        requires own { own < domains }
        requires few { domains ≤ 4 }
    {
        let book = Book::new(alloc, 32)?;
        let mut fails = FailBook::new(alloc)?;
        let (clock, reader, pass) = two_seats(alloc, 1)?;
        let domains = ZoneDomains::new(alloc, &clock, &book, 0, domains, smr)?;
        let misses = domains.open_misses(rt, own);
        let seating = domains.seating(&book, own);
        let ports = domains.open_ports(rt, alloc)?;
        let seat = SeatCache::new(alloc, 4, seating, fails.new_share(), misses, ports)?;
        Ok(SeatedZone {
            domains,
            seat,
            book,
            clock,
            pass,
            reader,
            smr,
        })
    }

    /// Frees a new item of this domain to the seat.
    pub fn free<R: Wait>(
        &mut self,
        rt: &R,
        alloc: Global,
        no: u32,
        domain: u8,
    ) -> Result<(), Fail> {
        if self.seat.spare() == 0 || !self.seat.ledger().room() || domain >= self.domains.count() {
            return Err(Fail::new("no room"));
        }
        let item = cached(rt, alloc, &mut self.book, no, domain)?;
        if self.smr {
            let Ok(live) = item.build(&idle_hooks(), 0) else {
                return Err(Fail::new("refused"));
            };
            self.seat.free_smr(&self.clock, &mut self.pass, live);
        } else {
            self.seat.free(item);
        }
        Ok(())
    }

    /// Frees four new items of domain 0 to the seat, whose numbers begin with this one.
    pub fn free_four<R: Wait>(&mut self, rt: &R, alloc: Global, first: u32) -> Result<(), Fail> {
        self.free_four_of(rt, alloc, first, 0)
    }

    /// The same with items of this domain.
    pub fn free_four_of<R: Wait>(
        &mut self,
        rt: &R,
        alloc: Global,
        first: u32,
        domain: u8,
    ) -> Result<(), Fail> {
        for no in 0..4 {
            self.free(rt, alloc, first.wrapping_add(no), domain)?;
        }
        Ok(())
    }

    /// Flushes the seat, and settles each domain.
    pub fn flush<R: Wait>(&mut self, rt: &R) -> Result<(), Memory> {
        self.push(rt)?;
        self.settle(rt)
    }

    /// Flushes the seat alone.
    pub fn push<R: Wait>(&mut self, rt: &R) -> Result<(), Memory> {
        self.domains
            .flush(rt, &self.clock, &mut self.pass, &mut self.seat)
    }

    pub fn settle<R: Wait>(&mut self, rt: &R) -> Result<(), Memory> {
        self.domains.settle_each(rt, &self.clock, &mut self.pass)
    }

    /// Settles the seat's own domain.
    pub fn settle_own<R: Wait>(&mut self, rt: &R) -> Result<(), Memory> {
        let own = self.seat.domain();
        self.domains.settle(rt, &self.clock, &mut self.pass, own)
    }

    pub fn make_room<R: Wait>(&mut self, rt: &R, alloc: Global) -> Result<(), Memory> {
        self.domains
            .make_room(rt, alloc, &self.clock, &mut self.pass, &mut self.seat)
    }

    /// Looks at the seat's domain, where no item of the seat is usable.
    pub fn look<R: Wait>(&mut self, rt: &R) -> Result<bool, Fail> {
        if self.seat.try_alloc().is_some() {
            return Err(Fail::new("an item is usable"));
        }
        Ok(
            self.domains.look(
                rt,
                &self.clock,
                &mut self.pass,
                &idle_hooks(),
                &mut self.seat,
            ),
        )
    }

    /// The number of the item that an allocation takes.
    pub fn alloc(&mut self) -> Option<u32> {
        self.seat.try_alloc().map(|item| item.no())
    }

    /// The number of the first of four items that are taken.
    pub fn alloc_four(&mut self) -> Option<u32> {
        let first = self.alloc()?;
        for _ in 0..3 {
            self.alloc()?;
        }
        Some(first)
    }

    /// How many spare buckets the seat has.
    pub fn spare(&self) -> u32 {
        self.seat.spare()
    }

    /// How many items the oldest bucket of the shelf has, which is taken.
    pub fn take_shelf(&mut self) -> Option<u32> {
        match self.seat.take_shelf()? {
            Shelved::Plain { bucket, .. } => Some(bucket.len()),
            Shelved::Loose { bucket, .. } => Some(bucket.len()),
            Shelved::Sealed { bucket, .. } => Some(bucket.len()),
        }
    }

    /// How many items are listed by a domain.
    pub fn count<R: Wait>(&self, rt: &R, domain: u8) -> u64
        ensures { result < 2 ^ 32 }
    {
        if domain < self.domains.count() {
            self.domains.get(domain).count(rt)
        } else {
            0
        }
    }

    /// The least and the greatest count of items that a domain lists, since the beginning.
    pub fn working<R: Wait>(&self, rt: &R, domain: u8) -> (u64, u64) {
        if domain < self.domains.count() {
            self.domains.get(domain).working(rt)
        } else {
            (0, 0)
        }
    }

    pub fn sums<R: Wait>(&self, rt: &R) -> Result<Sums, Memory> {
        self.domains.sums(rt)
    }

    /// What the seat counted.
    pub fn ledger(&self) -> SeatLedger {
        self.seat.ledger()
    }

    /// The hands of the clock: read and write.
    pub fn hands(&mut self) -> (u64, u64) {
        self.clock.hands(&mut self.pass)
    }

    /// The reader enters a section.
    pub fn enter(&mut self) -> Result<(), Fail> {
        match self.reader.phase() {
            Phase::Outside => Ok(self.clock.enter(&mut self.reader)?),
            _ => Err(Fail::new("not outside")),
        }
    }

    /// The reader leaves its section.
    pub fn exit(&mut self) -> Result<(), Fail> {
        match self.reader.phase() {
            Phase::Inside => {
                self.clock.exit(&mut self.reader);
                Ok(())
            }
            _ => Err(Fail::new("not inside")),
        }
    }
}
