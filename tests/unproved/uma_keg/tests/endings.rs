//! How a fetch ends, worked out by its numbers alone, slowly.
ghost use Rattle.std.specs.Prelude.{◌≡◌, ◌≤◌, ◌<◌, ◌+◌, ◌-◌, ◌*◌, ◌↔◌, ℕ, IsTrue, IfOk, IfErr, min};
ghost use Rattle.uma_keg.specs.CountsFound.{found_by, AreSmall};
ghost use Rattle.uma_keg.specs.Fetch.{allowed, IsNewSlabs, EndsAs, Refuses, Gives};
ghost use Rattle.uma_keg.specs.Fetched.{wish_of};

use crate::{FetchAsk, KegCounts};
use zone_stats::Refusal;

/// What a fetch finds: how the keg stands, and the zone's items outside and its limit.
#[derive(Clone, Copy, Debug, PartialEq, Eq)]
pub struct Found {
    pub counts: KegCounts,
    pub out: u64,
    pub limit: u64,
}

/// The counts of the keg with so many slabs more.
fn with_slabs(counts: KegCounts, slabs: u32) -> KegCounts
    requires small { AreSmall counts }
    requires within { counts.slabs + slabs ≤ counts.cap }
    ensures free { result.free ≡ counts.free + slabs * counts.per_slab }
    ensures slabs { result.slabs ≡ counts.slabs + slabs }
    ensures made { result.made ≡ counts.made + slabs }
    ensures reserve { result.reserve ≡ counts.reserve }
{
    let items = u64::from(slabs) * u64::from(counts.per_slab);
    KegCounts {
        slabs: counts.slabs + slabs,
        made: counts.made + u64::from(slabs),
        free: counts.free + items,
        ..counts
    }
}

/// The least count of new slabs with which an item is free beyond the reserve, or else as many as may still be in.
fn new_slabs(counts: KegCounts) -> u32
    requires { AreSmall counts }
    ensures within { counts.slabs + result ≤ counts.cap }
    ensures least { (out limit : ℕ) → IsNewSlabs (found_by counts out limit) result }
{
    let most = counts.cap - counts.slabs;
    for slabs in 0..most {
        if with_slabs(counts, slabs).free > counts.reserve {
            return slabs;
        }
    }
    most
}

/// Whether so many items lie beyond the reserve and within the limit.
fn may_give(found: Found, items: u64) -> bool
    ensures { IsTrue result ↔ ((items ≤ found.counts.free - found.counts.reserve) × (0 < found.limit → items ≤ found.limit - found.out)) }
{
    let kept = items <= found.counts.free.saturating_sub(found.counts.reserve);
    let within = found.limit == 0 || items <= found.limit.saturating_sub(found.out);
    kept && within
}

/// The greatest count, up to the one that is asked for, that lies beyond the reserve and within the limit.
fn most_given(found: Found, ask: FetchAsk) -> u32
    ensures { result ≡ min ask.most (min (found.counts.free - found.counts.reserve) (allowed (found_by found.counts found.out found.limit) (wish_of ask))) }
{
    for fewer in 0..ask.most {
        if may_give(found, u64::from(ask.most - fewer)) {
            return ask.most - fewer;
        }
    }
    0
}

/// How a fetch ends by the numbers that it finds.
pub fn ending(found: Found, ask: FetchAsk) -> Result<u32, Refusal>
    requires { AreSmall found.counts }
    ensures gives { IfOk result (λ count. EndsAs (found_by found.counts found.out found.limit) (wish_of ask) (Gives count)) }
    ensures refuses { IfErr result (λ refusal. EndsAs (found_by found.counts found.out found.limit) (wish_of ask) (Refuses refusal)) }
{
    let Found { out, limit, .. } = found;
    if limit > 0 && out >= limit {
        return Err(Refusal::AtLimit { out, limit });
    }
    let counts = with_slabs(found.counts, new_slabs(found.counts));
    let KegCounts {
        slabs,
        made,
        free,
        reserve,
        ..
    } = counts;
    if free == 0 {
        return Err(Refusal::Full { slabs, made });
    }
    if free > reserve {
        return Ok(most_given(Found { counts, ..found }, ask));
    }
    if ask.reserve {
        return Ok(1);
    }
    Err(Refusal::Reserved { free, reserve })
}

/// What stands after a fetch that ended so.
pub fn left(found: Found, outcome: Result<u32, Refusal>) -> Found
    requires { AreSmall found.counts }
{
    if let Err(Refusal::AtLimit { .. }) = outcome {
        return found;
    }
    let counts = with_slabs(found.counts, new_slabs(found.counts));
    let count = u64::from(outcome.unwrap_or(0));
    let counts = KegCounts {
        free: counts.free.saturating_sub(count),
        ..counts
    };
    Found {
        counts,
        out: found.out.saturating_add(count),
        ..found
    }
}
