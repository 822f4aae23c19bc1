ghost use Rattle.std.specs.Prelude.{◌≡◌, ◌<◌, ◌*◌, ◌^◌, All, IfOk};
ghost use Rattle.smr_clock.specs.Belongs.{IsPassOf, clock_id, setup_of};
ghost use Rattle.name_cache.specs.Cache.{cache_clock, cache_domains};
ghost use Rattle.name_cache.specs.Making.{IsOpened};

use crate::NameCache;
use name_rows::{Names, Opened, make};
use smr_clock::{Clock, Pass};
use std::alloc::Global;
use std::test::Fail;
use uma_zone::ZoneSet;

/// One slab, buckets of four, no limit and no reserve, in one domain.
pub(super) const SET: ZoneSet = ZoneSet {
    slabs: 1,
    bucket: 4,
    limit: 0,
    reserve: 0,
    domains: 1,
    smr: true,
};

/// Names of so many rows at a version, and of the entries of so many slabs, over a clock of three seats from 1 on with a
/// window of 8.
pub(super) fn open_names(alloc: Global, rows: u32, slabs: u32, version: u64) -> Result<Opened, Fail>
    requires { slabs < 2 ^ 16 }
    ensures opened { IfOk result IsOpened }
    ensures entries { IfOk result (λ opened. (setup_of opened.clock).plan.1 ≡ 64 * slabs) }
    ensures passes { IfOk result (λ opened. All (IsPassOf opened.clock) opened.passes) }
{
    let opened = make(alloc, 3, 1, 8, rows, 64 * slabs, version)?;
    Ok(opened)
}

/// A cache of such names, whose zone may have all these slabs. Its clock, and the passes.
pub(super) fn new_cache(
    alloc: Global,
    rows: u32,
    slabs: u32,
    version: u64,
) -> Result<(NameCache, Clock<Names>, Vec<Pass<Names>>), Fail>
    requires { slabs < 2 ^ 16 }
    ensures clock { IfOk result (λ (cache, clock, passes). clock_id clock ≡ cache_clock cache) }
    ensures domains { IfOk result (λ (cache, clock, passes). cache_domains cache ≡ 1) }
    ensures passes { IfOk result (λ (cache, clock, passes). All (IsPassOf clock) passes.items) }
{
    let opened = open_names(alloc, rows, slabs, version)?;
    let (cache, clock, passes) = NameCache::new(alloc, opened, ZoneSet { slabs, ..SET })?;
    Ok((cache, clock, passes))
}

/// Takes one of the passes of a clock.
pub(super) fn take_pass(
    clock: &Clock<Names>,
    passes: &mut Vec<Pass<Names>>,
) -> Result<Pass<Names>, Fail>
    requires { All (IsPassOf clock.now) passes.old.items }
    ensures here { IfOk result (IsPassOf clock.now) }
    ensures left { All (IsPassOf clock.now) passes.new.items }
{
    match passes.pop() {
        Some(pass) => Ok(pass),
        None => Err(Fail::new("too few passes")),
    }
}
