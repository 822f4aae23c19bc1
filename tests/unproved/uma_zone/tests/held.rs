ghost use Rattle.std.specs.Prelude.{◌≡◌, ◌<◌, All, IfSome};
ghost use Rattle.uma_bucket.specs.Home.{IsHome};
ghost use Rattle.uma_life.specs.Live.{live_ticket};
ghost use Rattle.uma_zone.specs.Zone.{zone_home};

use super::hooks::Stamped;
use super::setting::TestZone;
use super::stopped::Stopped;
use uma_life::Live;

/// Holds one item of the zone more.
pub(super) fn hold(
    zone: &TestZone,
    held: &mut Vec<Live<Stamped>>,
    live: Live<Stamped>,
) -> Result<(), Stopped>
    requires held { All (λ live. IsHome (zone_home zone.now) (live_ticket live)) held.old.items }
    requires live { IsHome (zone_home zone.now) (live_ticket live) }
    ensures { All (λ live. IsHome (zone_home zone.now) (live_ticket live)) held.new.items }
{
    match held.push(live) {
        Ok(()) => Ok(()),
        Err(_) => Err(Stopped::Memory),
    }
}

/// Takes the item of the zone that was held last.
pub(super) fn take_last(zone: &TestZone, held: &mut Vec<Live<Stamped>>) -> Option<Live<Stamped>>
    requires { All (λ live. IsHome (zone_home zone.now) (live_ticket live)) held.old.items }
    ensures left { All (λ live. IsHome (zone_home zone.now) (live_ticket live)) held.new.items }
    ensures last { IfSome result (λ live. IsHome (zone_home zone.now) (live_ticket live)) }
{
    held.pop()
}
