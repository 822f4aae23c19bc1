ghost use Rattle.std.specs.Prelude.{◌≡◌, ◌<◌, All, IfSome, IsTrue};
ghost use Rattle.smr_clock.specs.Belongs.{IsPassOf, clock_id};
ghost use Rattle.zone_stats.specs.LedgerSteps.{HasRoom};
ghost use Rattle.name_cache.specs.Bind.{HasRoomToBind};
ghost use Rattle.name_cache.specs.Cache.{cache_clock, cache_home, cache_domains, IsCacheSeat};
ghost use Rattle.name_cache.specs.LockedRow.{IsItemOf};

use super::setting::take_pass;
use crate::parts::EntryParts;
use crate::{BindRefused, NameCache, Receipt};
use crate::RaisedEntry;
use deed_book::Memory;
use name_rows::Names;
use smr_clock::{Clock, Pass};
use smr_core::Phase;
use std::alloc::Global;
use std::sync::Wait;
use std::test::Fail;
use uma_seat::SeatCache;
use zone_stats::SeatLedger;

/// Who works with a cache: a pass and a seat, and the pass of a reader, who is told what the worker knows.
///
/// What always holds: the passes are of the cache's clock, and the seat is of its zone.
#[derive(Drop)]
pub(super) struct Worker<'a> {
    cache: &'a NameCache,
    clock: &'a Clock<Names>,
    pass: Pass<Names>,
    reader: Pass<Names>,
    pub seat: SeatCache<RaisedEntry, Names>,
    pub ghost clocked: { clock_id clock.now ≡ cache_clock cache.now },
    pub ghost here: { IsPassOf clock.now pass },
    pub ghost reader_here: { IsPassOf clock.now reader },
    pub ghost seated: { IsCacheSeat cache.now seat },
}

/// A worker with a seat in the first domain.
pub(super) fn new_worker<'a, R: Wait>(
    rt: &R,
    alloc: Global,
    cache: &'a NameCache,
    clock: &'a Clock<Names>,
    mut passes: Vec<Pass<Names>>,
) -> Result<Worker<'a>, Fail>
    requires clock { clock_id clock.now ≡ cache_clock cache.now }
    requires passes { All (IsPassOf clock.now) passes.items }
    requires domain { 0 < cache_domains cache.now }
{
    let pass = take_pass(clock, &mut passes)?;
    let reader = take_pass(clock, &mut passes)?;
    let seat = cache.seat(rt, alloc, 0)?;
    Ok(Worker {
        cache,
        clock,
        pass,
        reader,
        seat,
    })
}

/// Whether a bind may count its request and its free.
pub(super) fn has_room(ledger: SeatLedger) -> bool
    ensures { IsTrue result → HasRoomToBind ledger }
{
    ledger.room() && ledger.requests < (1 << 63) - 1
}

impl Worker<'_> {
    /// Binds a key to a value, or tells that memory is wanting. None where the seat's ledger is full.
    pub fn try_bind<R: Wait>(
        &mut self,
        rt: &R,
        alloc: Global,
        key: u64,
        value: u64,
    ) -> Option<Result<Receipt, BindRefused>> {
        if !has_room(self.seat.ledger()) {
            return None;
        }
        Some(
            self.cache.bind(
                rt,
                alloc,
                self.clock,
                &mut self.pass,
                &mut self.seat,
                key,
                value,
            ),
        )
    }

    /// Binds a key to a value. Stops where memory is wanting.
    pub fn bind<R: Wait>(
        &mut self,
        rt: &R,
        alloc: Global,
        key: u64,
        value: u64,
    ) -> Result<Result<Receipt, BindRefused>, Fail> {
        match self.try_bind(rt, alloc, key, value) {
            Some(Err(BindRefused::Memory)) => Err(Memory)?,
            Some(ended) => Ok(ended),
            None => Err(Fail::new("the ledger is full")),
        }
    }

    /// Binds the keys below this count, each to itself. Whether each was bound.
    pub fn bind_all<R: Wait>(&mut self, rt: &R, alloc: Global, count: u64) -> Result<bool, Fail> {
        let mut all = true;
        for key in 0..count {
            if self.bind(rt, alloc, key, key)?.is_err() {
                all = false;
            }
        }
        Ok(all)
    }

    /// Takes a key out. Stops where memory is wanting.
    pub fn unbind<R: Wait>(
        &mut self,
        rt: &R,
        alloc: Global,
        key: u64,
    ) -> Result<Option<(u64, Receipt)>, Fail> {
        Ok(self.try_unbind(rt, alloc, key)??)
    }

    /// Takes a key out, or tells that memory is wanting.
    pub fn try_unbind<R: Wait>(
        &mut self,
        rt: &R,
        alloc: Global,
        key: u64,
    ) -> Result<Result<Option<(u64, Receipt)>, Memory>, Fail> {
        if !self.seat.ledger().room() {
            return Err(Fail::new("the ledger is full"));
        }
        Ok(
            self.cache
                .unbind(rt, alloc, self.clock, &mut self.pass, &mut self.seat, key),
        )
    }

    /// Looks a key up.
    pub fn look(&mut self, key: u64) -> Result<Option<u64>, Fail> {
        match self.pass.phase() {
            Phase::Outside => Ok(self.cache.look(self.clock, &mut self.pass, key)?),
            _ => Err(Fail::new("inside a section")),
        }
    }

    /// Looks a key up by the pass of the reader.
    pub fn reader_looks(&mut self, key: u64) -> Result<Option<u64>, Fail> {
        match self.reader.phase() {
            Phase::Outside => Ok(self.cache.look(self.clock, &mut self.reader, key)?),
            _ => Err(Fail::new("inside a section")),
        }
    }

    /// Tells the reader, by a note, what the worker's pass knows.
    pub fn tell_reader(&mut self) {
        let note = self.clock.note(&mut self.pass);
        self.clock.absorb(&mut self.reader, note);
    }

    /// Takes out of its row what the key's row binds, and frees it without a stamp, as no call of the cache does.
    pub fn free_unstamped<R: Wait>(&mut self, rt: &R, key: u64) -> Result<(), Fail> {
        let Some(out) = take_unstamped(rt, self.cache, self.clock, &mut self.pass, key) else {
            return Err(Fail::new("nothing was linked"));
        };
        if self.seat.spare() == 0 || !self.seat.ledger().room() {
            return Err(Fail::new("the seat has no room"));
        }
        self.cache
            .free(self.clock, &mut self.pass, &mut self.seat, out);
        Ok(())
    }

    /// The hands of the clock: read and write.
    pub fn hands(&mut self) -> (u64, u64) {
        self.clock.hands(&mut self.pass)
    }
}

// The entry of the key's row, out of it and without a stamp.
fn take_unstamped<R: Wait>(
    rt: &R,
    cache: &NameCache,
    clock: &Clock<Names>,
    pass: &mut Pass<Names>,
    key: u64,
) -> Option<EntryParts>
    requires clock { clock_id clock.now ≡ cache_clock cache.now }
    requires pass { IsPassOf clock.now pass.old }
    ensures pass { IsPassOf clock.now pass.new }
    ensures item { IfSome result (IsItemOf (cache_clock cache.now) (cache_home cache.now)) }
{
    let mut guard = cache.lock_row(rt, key);
    guard.value.take(clock, pass)
}
