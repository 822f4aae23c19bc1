ghost use Rattle.std.specs.Prelude.{◌≡◌, All, IfOk};
ghost use Rattle.smr_clock.specs.Belongs.{IsPassOf, clock_id};
ghost use Rattle.uma_zone.specs.Zone.{zone_index, zone_clock, zone_smr, zone_domains};

use super::hooks::{Stamped, TestHooks, hooks};
use crate::{SecondSet, Zone, ZoneRefused, ZoneSet};
use deed_book::Memory;
use smr_clock::{Bare, Clock, Pass};
use std::alloc::Global;
use std::sync::Wait;
use std::test::Fail;
use uma_life::Lives;

pub(super) type TestZone = Zone<Stamped, TestHooks, Bare>;

/// Four slabs, buckets of four, no limit and no reserve, in one domain, with readers that lock.
pub(super) const PLAIN: ZoneSet = ZoneSet {
    slabs: 4,
    bucket: 4,
    limit: 0,
    reserve: 0,
    domains: 1,
    smr: false,
};

/// A clock of so many seats from 1 on with this window, and its passes.
pub(super) fn new_clock(
    alloc: Global,
    seats: u32,
    window: u64,
) -> Result<(Clock<Bare>, Vec<Pass<Bare>>), Fail>
    ensures { IfOk result (λ made. All (IsPassOf made.0) made.1.items) }
{
    let (clock, passes) = Clock::<Bare>::new(alloc, seats, 1, window)?;
    Ok((clock, passes))
}

/// Takes one of the passes of a clock.
pub(super) fn take_pass(
    clock: &Clock<Bare>,
    passes: &mut Vec<Pass<Bare>>,
) -> Result<Pass<Bare>, Fail>
    requires { All (IsPassOf clock.now) passes.old.items }
    ensures here { IfOk result (IsPassOf clock.now) }
    ensures left { All (IsPassOf clock.now) passes.new.items }
{
    match passes.pop() {
        Some(pass) => Ok(pass),
        None => Err(Fail::new("no pass")),
    }
}

/// A clock of one seat from 1 on with this window, and its pass.
pub(super) fn one_pass(alloc: Global, window: u64) -> Result<(Clock<Bare>, Pass<Bare>), Fail>
    ensures { IfOk result (λ made. IsPassOf made.0 made.1) }
{
    let (clock, mut passes) = new_clock(alloc, 1, window)?;
    let pass = take_pass(&clock, &mut passes)?;
    Ok((clock, pass))
}

/// A primary zone of items of this size.
pub(super) fn zone(
    alloc: Global,
    clock: &Clock<Bare>,
    size: u32,
    set: ZoneSet,
) -> Result<TestZone, ZoneRefused>
    ensures index { IfOk result (λ made. zone_index made ≡ 0) }
    ensures clock { IfOk result (λ made. zone_clock made ≡ clock_id clock.now) }
    ensures smr { IfOk result (λ made. zone_smr made ≡ set.smr) }
    ensures domains { IfOk result (λ made. zone_domains made ≡ set.domains) }
{
    Zone::primary(alloc, clock, size, set, hooks(), hooks())
}

/// A secondary zone over the keg of a primary one.
pub(super) fn second<R: Wait>(
    rt: &R,
    alloc: Global,
    base: &mut TestZone,
    set: SecondSet,
) -> Result<TestZone, ZoneRefused>
    requires { zone_index base.old ≡ 0 }
    ensures clock { IfOk result (λ made. zone_clock made ≡ zone_clock base.old) }
    ensures domains { IfOk result (λ made. zone_domains made ≡ zone_domains base.old) }
    ensures same_index { zone_index base.new ≡ zone_index base.old }
    ensures same_clock { zone_clock base.new ≡ zone_clock base.old }
    ensures same_domains { zone_domains base.new ≡ zone_domains base.old }
{
    base.secondary(rt, alloc, set, hooks())
}

/// How many items are outside in the primary zone, by a census that is lent nothing.
pub(super) fn out<R: Wait>(rt: &R, alloc: Global, zone: &TestZone) -> Result<u64, Fail> {
    let Ok((census, _)) = zone.census(rt, alloc, Lives::from_vec(Vec::new(alloc))) else {
        return Err(Memory)?;
    };
    Ok(census.outs()[0])
}
