ghost use Rattle.std.specs.Prelude.{◌≡◌, All, IfOk};
ghost use Rattle.smr_clock.specs.Belongs.{IsPassOf, clock_id};
ghost use Rattle.uma_zone.specs.Zone.{zone_clock};
ghost use Rattle.replay_worker.specs.Worker.{AreOfClock};

use crate::{make_clock, make_zones, set_up};
use smr_clock::{Bare, Clock, Pass};
use std::alloc::Global;
use std::sync::Wait;
use std::test::Fail;
use trace_text::parse;
use replay_worker::CountedZone;
use uma_zone::{AllocAsk, AllocRefused};

/// Two kegs: the first has two secondary zones, the second one.
const TWO_KEGS: &[u8] =
    b"uma 1\nworkers 3\ndomains 2\nclock 5 8\nzone box 256 4 4 0 0 plain\nzone node 512 8 8 9 2 smr\nsecond sub box 4 5 plain\nsecond more box 8 3 smr\nsecond leaf node 4 0 plain\nend\n";

/// By which number in its keg the zone's first item is outside.
fn number_of<R: Wait>(
    rt: &R,
    alloc: Global,
    clock: &Clock<Bare>,
    pass: &mut Pass<Bare>,
    zone: &CountedZone<Bare>,
) -> Result<u8, Fail>
    requires clock { clock_id clock.now ≡ zone_clock zone.now }
    requires pass { IsPassOf clock.now pass.old }
    ensures { IsPassOf clock.now pass.new }
{
    if zone.domains() == 0 {
        return Err(Fail::new("no domain"));
    }
    let mut seat = zone.seat(rt, alloc, 0)?;
    let ask = AllocAsk {
        arg: 0,
        reserve: false,
    };
    match zone.alloc(rt, alloc, clock, pass, &mut seat, ask) {
        Ok(live) => Ok(live.zone()),
        Err(AllocRefused::Memory) => Err(AllocRefused::Memory)?,
        Err(_) => Err(Fail::new("no item")),
    }
}

/// The numbers of these zones in their kegs.
fn numbers_of<R: Wait>(
    rt: &R,
    alloc: Global,
    clock: &Clock<Bare>,
    mut pass: Pass<Bare>,
    zones: &[CountedZone<Bare>],
) -> Result<Vec<u8>, Fail>
    requires clock { AreOfClock clock.now zones.now }
    requires pass { IsPassOf clock.now pass }
{
    let mut numbers = Vec::new(alloc);
    for zone in zones {
        numbers.push(number_of(rt, alloc, clock, &mut pass, zone)?)?;
    }
    Ok(numbers)
}

#[test]
fn zones_are_numbered_in_their_kegs(rt: HostRuntime) -> Result<(), Fail> {
    let trace = parse(rt.alloc(), TWO_KEGS)?;
    let (clock, mut passes) = make_clock(rt.alloc(), &trace.head)?;
    let zones = make_zones(&rt, rt.alloc(), &clock, &trace.head)?;
    assert_eq!(rt; passes.len(), 3);
    let pass = passes.swap_remove(0);
    let numbers = numbers_of(&rt, rt.alloc(), &clock, pass, zones.as_slice())?;
    assert_eq!(rt; numbers.as_slice(), [0, 0, 1, 2, 1].as_slice());
    Ok(())
}

#[test]
fn a_trace_is_set_up(rt: HostRuntime) -> Result<(), Fail> {
    let trace = parse(rt.alloc(), TWO_KEGS)?;
    let setting = set_up(&rt, rt.alloc(), &trace)?;
    assert_eq!(rt; setting.clock.seats(), 3);
    assert_eq!(rt; setting.zones.len(), 5);
    assert_eq!(rt; setting.workers.len(), 3);
    Ok(())
}
