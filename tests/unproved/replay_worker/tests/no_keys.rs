//! Calls of names for tests, where no key is ever bound: each bind is refused, as if the zone had all its slabs.
ghost use Rattle.std.specs.Prelude.{◌≡◌, [], Some, None, true, refl};
ghost use Rattle.smr_clock.specs.Belongs.{clock_id};

use crate::Memory;
use crate::name_calls::NameCalls;
use smr_clock::{Bare, Clock, Overtaken, Pass};
use std::alloc::Global;
use std::sync::Wait;
use trace_text::Trace;
use uma_bucket::Sums;
use uma_keg::Census;
use zone_stats::{Refusal, SeatLedger};

/// Its cache is a handle of the clock, and its seat a ledger.
pub struct NoKeys;

impl NameCalls for NoKeys {
    type H = Bare;

    type Cache = Clock<Bare>;

    type Seat = SeatLedger;

    ghost serves = { true };

    ghost clock_of = { λ clock. clock_id clock };

    ghost sizes_of = { λ _. record { rows = 1; slabs = 1; bucket = 4; domains = 1 } };

    ghost IsSeat = { λ _ _. Unit {0} };

    ghost domain_of = { λ _. 0 };

    ghost counted = { λ ledger. Some ledger };

    ghost usable = { λ _. [] };

    ghost Came = { λ _ _. ⊥ };

    ghost IsFound = { λ _ _. Unit {0} };

    ghost TurnsBack = { λ _ _ _ _ _ _. Unit {0} };

    ghost IsCensus = { λ _ _. ⊥ };

    ghost passed = { λ _ _. 0 };

    ghost deferred = { λ _. 0 };

    ghost plans = { λ _. (0, 0) };

    ghost knows = { λ _ row version bound. (version ≡ 0) × (bound ≡ None) };

    ghost told = { λ _. [] };

    ghost counts_where_served = { λ _. refl };

    fn set_up(
        &self,
        _alloc: Global,
        _trace: &Trace,
    ) -> Result<(Clock<Bare>, Clock<Bare>, Vec<Pass<Bare>>), Memory> {
        Err(Memory)
    }

    fn seat<R: Wait>(
        &self,
        _cache: &Clock<Bare>,
        _rt: &R,
        _alloc: Global,
        _domain: u8,
    ) -> Result<SeatLedger, Memory> {
        Ok(SeatLedger::new())
    }

    fn bind<R: Wait>(
        &self,
        _cache: &Clock<Bare>,
        _rt: &R,
        _alloc: Global,
        _clock: &Clock<Bare>,
        _pass: &mut Pass<Bare>,
        seat: &mut SeatLedger,
        _key: u64,
        _value: u64,
    ) -> Result<bool, Memory> {
        seat.count_refused(Refusal::Full { slabs: 1, made: 1 });
        Ok(false)
    }

    fn unbind<R: Wait>(
        &self,
        _cache: &Clock<Bare>,
        _rt: &R,
        _alloc: Global,
        _clock: &Clock<Bare>,
        _pass: &mut Pass<Bare>,
        _seat: &mut SeatLedger,
        _key: u64,
    ) -> Result<bool, Memory> {
        Ok(false)
    }

    fn find(
        &self,
        _cache: &Clock<Bare>,
        _clock: &Clock<Bare>,
        _pass: &mut Pass<Bare>,
        _key: u64,
    ) -> Option<u64> {
        None
    }

    fn look(
        &self,
        _cache: &Clock<Bare>,
        clock: &Clock<Bare>,
        pass: &mut Pass<Bare>,
        _key: u64,
    ) -> Result<Option<u64>, Overtaken> {
        clock.enter(pass)?;
        clock.exit(pass);
        Ok(None)
    }

    fn ledger(seat: &SeatLedger) -> Option<SeatLedger> {
        Some(*seat)
    }

    fn seat_sums(_seat: &SeatLedger) -> Sums {
        Sums::none()
    }

    fn census<R: Wait>(
        &self,
        _cache: &Clock<Bare>,
        _rt: &R,
        _alloc: Global,
    ) -> Result<Census, Memory> {
        Err(Memory)
    }

    fn sums<R: Wait>(&self, _cache: &Clock<Bare>, _rt: &R) -> Result<Sums, Memory> {
        Ok(Sums::none())
    }
}
