ghost use Rattle.std.specs.Prelude.{◌≡◌, IfOk};
ghost use Rattle.smr_core.specs.declared.holder.Phase.{Phase};
ghost use Rattle.smr_clock.specs.Belongs.{IsPassOf, holder};

use smr_clock::{Bare, Clock, ClockRefused, Pass};
use std::alloc::Global;

/// A clock of two seats with a window of 4, and the passes of its seats.
pub(super) fn two_seats(
    alloc: Global,
    start: u64,
) -> Result<(Clock<Bare>, Pass<Bare>, Pass<Bare>), ClockRefused>
    ensures here { IfOk result (λ made. IsPassOf made.0 made.1 × IsPassOf made.0 made.2) }
    ensures outside { IfOk result (λ made. ((holder made.1).phase ≡ Phase.Outside) × ((holder made.2).phase ≡ Phase.Outside)) }
{
    let (clock, mut passes) = Clock::<Bare>::new(alloc, 2, start, 4)?;
    let second = passes.pop();
    let first = passes.pop();
    let (Some(first), Some(second)) = (first, second) else {
        unreachable!()
    };
    Ok((clock, first, second))
}
