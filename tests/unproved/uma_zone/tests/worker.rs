ghost use Rattle.std.specs.Prelude.{◌≡◌, ◌≤◌, ◌<◌, All, OnOk, length};
ghost use Rattle.smr_clock.specs.Belongs.{IsPassOf, clock_id};
ghost use Rattle.uma_bucket.specs.Home.{IsHome};
ghost use Rattle.uma_life.specs.Live.{live_ticket};
ghost use Rattle.uma_seat.specs.Seat.{spares_of, ledger_of};
ghost use Rattle.zone_stats.specs.LedgerSteps.{HasRoom};
ghost use Rattle.uma_zone.specs.Zone.{zone_home, zone_clock, zone_domains, IsSeatOf};

use super::held::{hold, take_last};
use super::hooks::Stamped;
use super::setting::{TestZone, take_pass};
use super::stopped::Stopped;
use crate::{AllocAsk, AllocRefused};
use deed_book::Memory;
use smr_clock::{Bare, Clock, Pass};
use smr_core::Phase;
use std::alloc::Global;
use std::sync::Wait;
use std::test::Fail;
use uma_bucket::Shelved;
use uma_life::Live;
use uma_seat::SeatCache;
use zone_stats::Refusal;

/// A worker of a zone: its pass, its seat, and the items that it holds, the last allocated at the end.
///
/// What always holds: the pass is of the clock of the zone's readers, the seat is of the zone, and each held item is at
/// home there.
#[derive(Drop)]
pub(super) struct Worker<'a> {
    zone: &'a TestZone,
    clock: &'a Clock<Bare>,
    pass: Pass<Bare>,
    pub seat: SeatCache<Stamped, Bare>,
    pub held: Vec<Live<Stamped>>,
    pub ghost clocked: { clock_id clock.now ≡ zone_clock zone.now },
    pub ghost here: { IsPassOf clock.now pass },
    pub ghost seated: { IsSeatOf zone.now seat },
    pub ghost home: { All (λ live. IsHome (zone_home zone.now) (live_ticket live)) held.items },
}

/// A worker with a seat in the first domain, that holds nothing.
pub(super) fn new_worker<'a, R: Wait>(
    rt: &R,
    alloc: Global,
    zone: &'a TestZone,
    clock: &'a Clock<Bare>,
    pass: Pass<Bare>,
) -> Result<Worker<'a>, Fail>
    requires clock { clock_id clock.now ≡ zone_clock zone.now }
    requires pass { IsPassOf clock.now pass }
    requires domain { 0 < zone_domains zone.now }
{
    new_worker_in(rt, alloc, zone, clock, pass, 0)
}

/// A worker with a seat in this domain, that holds nothing.
pub(super) fn new_worker_in<'a, R: Wait>(
    rt: &R,
    alloc: Global,
    zone: &'a TestZone,
    clock: &'a Clock<Bare>,
    pass: Pass<Bare>,
    domain: u8,
) -> Result<Worker<'a>, Fail>
    requires clock { clock_id clock.now ≡ zone_clock zone.now }
    requires pass { IsPassOf clock.now pass }
    requires domain { domain < zone_domains zone.now }
{
    let seat = zone.seat(rt, alloc, domain)?;
    Ok(Worker {
        zone,
        clock,
        pass,
        seat,
        held: Vec::new(alloc),
    })
}

/// So many workers, each with one of the passes.
pub(super) fn new_workers<'a, R: Wait>(
    rt: &R,
    alloc: Global,
    zone: &'a TestZone,
    clock: &'a Clock<Bare>,
    mut passes: Vec<Pass<Bare>>,
    count: u32,
) -> Result<Vec<Worker<'a>>, Fail>
    requires clock { clock_id clock.now ≡ zone_clock zone.now }
    requires passes { All (IsPassOf clock.now) passes.items }
    requires domain { 0 < zone_domains zone.now }
{
    let mut workers = Vec::new(alloc);
    for _ in 0..count {
        let pass = take_pass(clock, &mut passes)?;
        workers.push(new_worker(rt, alloc, zone, clock, pass)?)?;
    }
    Ok(workers)
}

impl Worker<'_> {
    /// Requests an item, which the worker holds then. Answers why there was none.
    pub fn request<R: Wait>(
        &mut self,
        rt: &R,
        alloc: Global,
        ask: AllocAsk,
    ) -> Result<Option<Refusal>, Stopped> {
        if !self.seat.ledger().room() {
            return Err(Stopped::Ledger);
        }
        match self
            .zone
            .alloc(rt, alloc, self.clock, &mut self.pass, &mut self.seat, ask)
        {
            Ok(live) => {
                hold(self.zone, &mut self.held, live)?;
                Ok(None)
            }
            Err(AllocRefused::Refused { refusal }) => Ok(Some(refusal)),
            Err(AllocRefused::Memory) => Err(Stopped::Memory),
        }
    }

    /// Requests so many items with the argument 0 and no right to the reserve. Answers how many were refused.
    pub fn request_many<R: Wait>(
        &mut self,
        rt: &R,
        alloc: Global,
        times: u32,
    ) -> Result<u32, Stopped> {
        let mut refused = 0u32;
        for _ in 0..times {
            let ask = AllocAsk {
                arg: 0,
                reserve: false,
            };
            if self.request(rt, alloc, ask)?.is_some() {
                refused = refused.wrapping_add(1);
            }
        }
        Ok(refused)
    }

    /// Frees the item that was allocated last, and makes room first where the seat has no spare bucket.
    pub fn release<R: Wait>(&mut self, rt: &R, alloc: Global) -> Result<(), Stopped> {
        self.make_spare(rt, alloc)?;
        self.free_last()
    }

    /// Frees so many items, the last allocated first.
    pub fn release_many<R: Wait>(
        &mut self,
        rt: &R,
        alloc: Global,
        times: u32,
    ) -> Result<(), Stopped> {
        for _ in 0..times {
            self.release(rt, alloc)?;
        }
        Ok(())
    }

    /// Frees the item that was allocated before the last one, if there is one.
    pub fn release_older<R: Wait>(&mut self, rt: &R, alloc: Global) -> Result<(), Stopped> {
        self.make_spare(rt, alloc)?;
        self.free_older()
    }

    /// Flushes the seat, and sees to it that it has two spare buckets.
    pub fn make_room<R: Wait>(&mut self, rt: &R, alloc: Global) -> Result<(), Stopped>
        ensures { OnOk result (0 < length (spares_of self.new.seat)) }
    {
        match self
            .zone
            .make_room(rt, alloc, self.clock, &mut self.pass, &mut self.seat)
        {
            Ok(()) => Ok(()),
            Err(_) => Err(Stopped::Memory),
        }
    }

    /// Flushes the seat.
    pub fn flush<R: Wait>(&mut self, rt: &R) -> Result<(), Memory> {
        self.zone
            .flush(rt, self.clock, &mut self.pass, &mut self.seat)
    }

    /// Settles each domain of the zone.
    pub fn settle<R: Wait>(&mut self, rt: &R) -> Result<(), Memory> {
        self.zone.settle(rt, self.clock, &mut self.pass)
    }

    // Sees to it that the seat has a spare bucket.
    fn make_spare<R: Wait>(&mut self, rt: &R, alloc: Global) -> Result<(), Stopped>
        ensures { OnOk result (0 < length (spares_of self.new.seat)) }
    {
        if self.seat.spare() > 0 {
            return Ok(());
        }
        self.make_room(rt, alloc)
    }

    fn free_last(&mut self) -> Result<(), Stopped>
        requires { 0 < length (spares_of self.old.seat) }
    {
        let Some(live) = take_last(self.zone, &mut self.held) else {
            return Err(Stopped::Empty);
        };
        self.free(live)
    }

    fn free_older(&mut self) -> Result<(), Stopped>
        requires { 0 < length (spares_of self.old.seat) }
    {
        let Some(last) = take_last(self.zone, &mut self.held) else {
            return Err(Stopped::Empty);
        };
        let Some(live) = take_last(self.zone, &mut self.held) else {
            return hold(self.zone, &mut self.held, last);
        };
        hold(self.zone, &mut self.held, last)?;
        self.free(live)
    }

    // Frees an item, where the ledger has room for it.
    fn free(&mut self, live: Live<Stamped>) -> Result<(), Stopped>
        requires spare { 0 < length (spares_of self.old.seat) }
        requires home { IsHome (zone_home self.old.zone.now) (live_ticket live) }
    {
        if !self.seat.ledger().room() {
            return Err(Stopped::Ledger);
        }
        self.free_by_kind(live);
        Ok(())
    }

    // Frees an item by the call of its zone's kind.
    fn free_by_kind(&mut self, live: Live<Stamped>)
        requires spare { 0 < length (spares_of self.old.seat) }
        requires room { HasRoom (ledger_of self.old.seat) }
        requires home { IsHome (zone_home self.old.zone.now) (live_ticket live) }
    {
        if self.zone.is_smr() {
            self.zone
                .free_smr(self.clock, &mut self.pass, &mut self.seat, live);
            return;
        }
        self.zone.free(&mut self.seat, live);
    }

    /// Gives the usable items of the seat back to the keg, eight at most, and answers how many they were.
    pub fn give_usable<R: Wait>(&mut self, rt: &R) -> u32 {
        let mut given = 0u32;
        for _ in 0..8 {
            if self.give_next(rt) {
                given = given.wrapping_add(1);
            }
        }
        given
    }

    // Gives the next usable item of the seat back to the keg. Whether there was one.
    fn give_next<R: Wait>(&mut self, rt: &R) -> bool {
        match self.seat.try_alloc() {
            Some(item) => {
                self.zone.give_one(rt, item);
                true
            }
            None => false,
        }
    }

    /// Gives the oldest bucket of the shelf back to the keg, and answers how many items it had. None where the shelf has no
    /// plain bucket of the first domain.
    pub fn give_shelf<R: Wait>(self, rt: &R) -> Option<u32> {
        let Worker { zone, mut seat, .. } = self;
        match seat.take_shelf() {
            Some(Shelved::Plain { domain: 0, bucket }) => Some(zone.give(rt, bucket)),
            _ => None,
        }
    }

    /// Enters a section.
    pub fn enter(&mut self) -> Result<(), Stopped> {
        match self.pass.phase() {
            Phase::Outside => match self.clock.enter(&mut self.pass) {
                Ok(()) => Ok(()),
                Err(_) => Err(Stopped::Section),
            },
            _ => Err(Stopped::Section),
        }
    }

    /// Leaves the section.
    pub fn exit(&mut self) -> Result<(), Stopped> {
        match self.pass.phase() {
            Phase::Inside => {
                self.clock.exit(&mut self.pass);
                Ok(())
            }
            _ => Err(Stopped::Section),
        }
    }

    /// Sets the limit of the zone.
    pub fn set_max<R: Wait>(&self, rt: &R, limit: u64) -> u64
        requires { limit ≤ 1000000 }
    {
        self.zone.set_max(rt, limit)
    }

    /// The hands of the clock: read and write.
    pub fn hands(&mut self) -> (u64, u64) {
        self.clock.hands(&mut self.pass)
    }
}
