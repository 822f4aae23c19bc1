ghost use Rattle.std.specs.Prelude.{◌≡◌, ◌<◌, All, OnOk, length};
ghost use Rattle.smr_clock.specs.Belongs.{IsPassOf, clock_id};
ghost use Rattle.uma_bucket.specs.Home.{IsHome};
ghost use Rattle.uma_life.specs.Live.{live_ticket};
ghost use Rattle.uma_seat.specs.Seat.{spares_of, ledger_of};
ghost use Rattle.zone_stats.specs.LedgerSteps.{HasRoom};
ghost use Rattle.uma_zone.specs.Zone.{zone_home, zone_clock, zone_domains, IsSeatOf};

use super::body::Plain;
use super::held::{hold, take_last};
use super::setting::{TestZone, take_pass};
use super::stopped::Stopped;
use crate::{drain, drain_seat, trim};
use deed_book::Memory;
use smr_clock::{Bare, Clock, Pass};
use smr_core::Phase;
use std::alloc::Global;
use std::sync::Wait;
use std::test::Fail;
use uma_life::Live;
use uma_seat::SeatCache;
use uma_zone::{AllocAsk, AllocRefused};
use zone_stats::Refusal;

/// A worker of a zone: its pass, its seat, and the items that it holds, the last allocated at the end.
///
/// What always holds: the pass is of the clock of the zone's readers, the seat is of the zone, and each held item is at
/// home there.
#[derive(Drop)]
pub(super) struct Worker<'a> {
    zone: &'a TestZone,
    clock: &'a Clock<Bare>,
    pass: Pass<Bare>,
    pub seat: SeatCache<Plain, Bare>,
    pub held: Vec<Live<Plain>>,
    pub ghost clocked: { clock_id clock.now ≡ zone_clock zone.now },
    pub ghost here: { IsPassOf clock.now pass },
    pub ghost seated: { IsSeatOf zone.now seat },
    pub ghost home: { All (λ live. IsHome (zone_home zone.now) (live_ticket live)) held.items },
}

/// A worker with a seat in the first domain, that holds nothing.
pub(super) fn new_worker<'a, R: Wait>(
    rt: &R,
    alloc: Global,
    zone: &'a TestZone,
    clock: &'a Clock<Bare>,
    pass: Pass<Bare>,
) -> Result<Worker<'a>, Fail>
    requires clock { clock_id clock.now ≡ zone_clock zone.now }
    requires pass { IsPassOf clock.now pass }
    requires domain { 0 < zone_domains zone.now }
{
    let seat = zone.seat(rt, alloc, 0)?;
    Ok(Worker {
        zone,
        clock,
        pass,
        seat,
        held: Vec::new(alloc),
    })
}

impl Worker<'_> {
    /// Requests an item, which the worker holds then. Answers why there was none.
    pub fn request<R: Wait>(
        &mut self,
        rt: &R,
        alloc: Global,
        ask: AllocAsk,
    ) -> Result<Option<Refusal>, Stopped> {
        if !self.seat.ledger().room() {
            return Err(Stopped::Ledger);
        }
        match self
            .zone
            .alloc(rt, alloc, self.clock, &mut self.pass, &mut self.seat, ask)
        {
            Ok(live) => {
                hold(self.zone, &mut self.held, live)?;
                Ok(None)
            }
            Err(AllocRefused::Refused { refusal }) => Ok(Some(refusal)),
            Err(AllocRefused::Memory) => Err(Stopped::Memory),
        }
    }

    /// Requests so many items with the argument 0 and no right to the reserve. Answers how many were refused.
    pub fn request_many<R: Wait>(
        &mut self,
        rt: &R,
        alloc: Global,
        times: u32,
    ) -> Result<u32, Stopped> {
        let mut refused = 0u32;
        for _ in 0..times {
            let ask = AllocAsk {
                arg: 0,
                reserve: false,
            };
            if self.request(rt, alloc, ask)?.is_some() {
                refused = refused.wrapping_add(1);
            }
        }
        Ok(refused)
    }

    /// Frees the item that was allocated last, and makes room first where the seat has no spare bucket.
    pub fn release<R: Wait>(&mut self, rt: &R, alloc: Global) -> Result<(), Stopped> {
        self.make_spare(rt, alloc)?;
        self.free_last()
    }

    /// Frees so many items, the last allocated first.
    pub fn release_many<R: Wait>(
        &mut self,
        rt: &R,
        alloc: Global,
        times: u32,
    ) -> Result<(), Stopped> {
        for _ in 0..times {
            self.release(rt, alloc)?;
        }
        Ok(())
    }

    /// Flushes the seat, and sees to it that it has two spare buckets.
    pub fn make_room<R: Wait>(&mut self, rt: &R, alloc: Global) -> Result<(), Stopped>
        ensures { OnOk result (0 < length (spares_of self.new.seat)) }
    {
        match self
            .zone
            .make_room(rt, alloc, self.clock, &mut self.pass, &mut self.seat)
        {
            Ok(()) => Ok(()),
            Err(_) => Err(Stopped::Memory),
        }
    }

    // Sees to it that the seat has a spare bucket.
    fn make_spare<R: Wait>(&mut self, rt: &R, alloc: Global) -> Result<(), Stopped>
        ensures { OnOk result (0 < length (spares_of self.new.seat)) }
    {
        if self.seat.spare() > 0 {
            return Ok(());
        }
        self.make_room(rt, alloc)
    }

    fn free_last(&mut self) -> Result<(), Stopped>
        requires { 0 < length (spares_of self.old.seat) }
    {
        let Some(live) = take_last(self.zone, &mut self.held) else {
            return Err(Stopped::Empty);
        };
        self.free(live)
    }

    // Frees an item, where the ledger has room for it.
    fn free(&mut self, live: Live<Plain>) -> Result<(), Stopped>
        requires spare { 0 < length (spares_of self.old.seat) }
        requires home { IsHome (zone_home self.old.zone.now) (live_ticket live) }
    {
        if !self.seat.ledger().room() {
            return Err(Stopped::Ledger);
        }
        self.free_by_kind(live);
        Ok(())
    }

    // Frees an item by the call of its zone's kind.
    fn free_by_kind(&mut self, live: Live<Plain>)
        requires spare { 0 < length (spares_of self.old.seat) }
        requires room { HasRoom (ledger_of self.old.seat) }
        requires home { IsHome (zone_home self.old.zone.now) (live_ticket live) }
    {
        if self.zone.is_smr() {
            self.zone
                .free_smr(self.clock, &mut self.pass, &mut self.seat, live);
            return;
        }
        self.zone.free(&mut self.seat, live);
    }

    /// Trims the zone. How many items went back, and how many slabs were given up.
    pub fn trim<R: Wait>(&mut self, rt: &R, alloc: Global) -> Result<(u64, u32), Memory> {
        let done = trim(
            rt,
            alloc,
            self.zone,
            self.clock,
            &mut self.pass,
            &mut self.seat,
        )?;
        Ok((done.items, done.slabs))
    }

    /// Drains the zone, likewise.
    pub fn drain<R: Wait>(&mut self, rt: &R, alloc: Global) -> Result<(u64, u32), Memory> {
        let done = drain(
            rt,
            alloc,
            self.zone,
            self.clock,
            &mut self.pass,
            &mut self.seat,
        )?;
        Ok((done.items, done.slabs))
    }

    /// Drains the zone and the seat, likewise.
    pub fn drain_seat<R: Wait>(&mut self, rt: &R, alloc: Global) -> Result<(u64, u32), Memory> {
        let done = drain_seat(
            rt,
            alloc,
            self.zone,
            self.clock,
            &mut self.pass,
            &mut self.seat,
        )?;
        Ok((done.items, done.slabs))
    }

    /// How many items the domains list, and how many the seat has, each of which passed `keg_init` once.
    pub fn found<R: Wait>(&self, rt: &R) -> Result<(u128, u128), Memory> {
        let listed = self.zone.sums(rt)?.tally.keg_inits;
        Ok((listed, self.seat.sums().tally.keg_inits))
    }

    /// How many freed items the domains list, and how many the seat has, that haven't passed `dtor` yet.
    pub fn deferred<R: Wait>(&self, rt: &R) -> Result<(u64, u64), Memory> {
        Ok((self.zone.sums(rt)?.deferred, self.seat.sums().deferred))
    }

    /// Enters a section.
    pub fn enter(&mut self) -> Result<(), Stopped> {
        match self.pass.phase() {
            Phase::Outside => match self.clock.enter(&mut self.pass) {
                Ok(()) => Ok(()),
                Err(_) => Err(Stopped::Section),
            },
            _ => Err(Stopped::Section),
        }
    }

    /// Leaves the section.
    pub fn exit(&mut self) -> Result<(), Stopped> {
        match self.pass.phase() {
            Phase::Inside => {
                self.clock.exit(&mut self.pass);
                Ok(())
            }
            _ => Err(Stopped::Section),
        }
    }
}
