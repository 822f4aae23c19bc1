ghost use Rattle.std.specs.Prelude.{◌≡◌, ◌<◌, All, IfOk, length};
ghost use Rattle.smr_clock.specs.Belongs.{IsPassOf, clock_id};
ghost use Rattle.uma_zone.specs.Zone.{zone_domains};
ghost use Rattle.replay_worker.specs.Worker.{AreOfClock};

use crate::{Attendance, CountHooks, CountedZone, FreeGate, NameCounts, NameWork, Shared, Slots, Worker, WorkerRun, move_slot};
use no_keys::NoKeys;
use smr_clock::{Bare, Clock, Pass};
use std::alloc::Global;
use std::sync::Wait;
use std::test::Fail;
use trace_text::parse;
use uma_zone::{AllocAsk, Zone, ZoneSet};
use watching::Watch;
use zone_stats::SeatLedger;

mod gates;
mod no_keys;
mod waiting;
mod watching;

const NO_LINES: &[u8] = b"uma 1\nworkers 1\ndomains 1\nend\n";

/// A clock of two seats, and its passes.
fn two_passes(alloc: Global) -> Result<(Clock<Bare>, Vec<Pass<Bare>>), Fail>
    ensures { IfOk result (λ made. All (IsPassOf made.0) made.1.items) }
{
    let (clock, passes) = Clock::<Bare>::new(alloc, 2, 1, 1024)?;
    Ok((clock, passes))
}

/// Takes one of the passes of a clock.
fn take_pass(clock: &Clock<Bare>, passes: &mut Vec<Pass<Bare>>) -> Result<Pass<Bare>, Fail>
    requires { All (IsPassOf clock.now) passes.old.items }
    ensures here { IfOk result (IsPassOf clock.now) }
    ensures left { All (IsPassOf clock.now) passes.new.items }
{
    match passes.pop() {
        Some(pass) => Ok(pass),
        None => Err(Fail::new("no pass")),
    }
}

/// One zone of items of 256 bytes in one domain, without limit and reserve.
fn one_zone(alloc: Global, clock: &Clock<Bare>) -> Result<Vec<CountedZone<Bare>>, Fail>
    ensures some { IfOk result (λ zones. 0 < length zones.items) }
    ensures clock { IfOk result (λ zones. AreOfClock clock.now zones.items) }
    ensures domains { IfOk result (λ zones. All (λ zone. 0 < zone_domains zone) zones.items) }
{
    let set = ZoneSet {
        slabs: 4,
        bucket: 4,
        limit: 0,
        reserve: 0,
        domains: 1,
        smr: false,
    };
    let zone = Zone::primary(alloc, clock, 256, set, CountHooks, CountHooks)?;
    let mut zones: Vec<CountedZone<Bare>> = Vec::new(alloc);
    zones.push(zone)?;
    Ok(zones)
}

/// A worker after one request of the first zone.
fn after_alloc<R: Wait>(
    rt: &R,
    alloc: Global,
    zones: &[CountedZone<Bare>],
    clock: &Clock<Bare>,
    pass: Pass<Bare>,
    ask: AllocAsk,
) -> Result<WorkerRun<NoKeys>, Fail>
    requires some { 0 < length zones.now }
    requires clock { AreOfClock clock.now zones.now }
    requires domains { All (λ zone. 0 < zone_domains zone) zones.now }
    requires pass { IsPassOf clock.now pass }
{
    let mut worker = Worker::new(rt, alloc, zones, clock, pass, 0, 8)?;
    worker.alloc(rt, alloc, zones, clock, 0, 3, ask)?;
    Ok(WorkerRun::new(worker, SeatLedger::new()))
}

/// The slots of a worker, which is there or away.
fn slots_of(run: &mut WorkerRun<NoKeys>) -> &mut Slots {
    match &mut run.attendance {
        Attendance::There(worker) => &mut worker.slots,
        Attendance::Away(absentee) => &mut absentee.slots,
    }
}

#[test]
fn an_item_is_given_and_a_refused_request_is_none(rt: HostRuntime) -> Result<(), Fail> {
    let alloc = rt.alloc();
    let (clock, mut passes) = two_passes(alloc)?;
    let first_pass = take_pass(&clock, &mut passes)?;
    let second_pass = take_pass(&clock, &mut passes)?;
    let zones = one_zone(alloc, &clock)?;
    let served = AllocAsk {
        arg: 0,
        reserve: false,
    };
    let refused = AllocAsk {
        arg: 7,
        reserve: false,
    };
    let first = after_alloc(&rt, alloc, zones.as_slice(), &clock, first_pass, served)?;
    let second = after_alloc(&rt, alloc, zones.as_slice(), &clock, second_pass, refused)?;
    let mut workers = Vec::new(alloc);
    workers.push(first)?;
    workers.push(second)?;
    assert!(rt; slots_of(&mut workers[0]).len() == 4 && slots_of(&mut workers[1]).len() == 0);
    move_slot(alloc, workers.as_mut_slice(), 0, 3, 1, 5)?;
    assert!(rt; slots_of(&mut workers[1]).len() == 6);
    assert!(rt; slots_of(&mut workers[0]).take(3).is_none());
    let Some(item) = slots_of(&mut workers[1]).take(5) else {
        return Err(Fail::new("no item"));
    };
    assert!(rt; slots_of(&mut workers[1]).take(5).is_none());
    slots_of(&mut workers[1]).put(alloc, 5, item)?;
    assert!(rt; slots_of(&mut workers[1]).take(5).is_some());
    Ok(())
}

/// How often a new worker of one zone got an item and freed it, after it did each once.
fn freed_again<R: Wait>(
    rt: &R,
    alloc: Global,
    zones: &[CountedZone<Bare>],
    clock: &Clock<Bare>,
    pass: Pass<Bare>,
) -> Result<(u64, u64), Fail>
    requires some { 0 < length zones.now }
    requires clock { AreOfClock clock.now zones.now }
    requires domains { All (λ zone. 0 < zone_domains zone) zones.now }
    requires pass { IsPassOf clock.now pass }
{
    let mut worker = Worker::new(rt, alloc, zones, clock, pass, 0, 8)?;
    let ask = AllocAsk {
        arg: 0,
        reserve: false,
    };
    worker.alloc(rt, alloc, zones, clock, 0, 3, ask)?;
    worker.free(rt, alloc, zones, clock, 3)?;
    match worker.seats.first() {
        Some(seat) => Ok((seat.ledger().allocs, seat.ledger().frees)),
        None => Err(Fail::new("no seat")),
    }
}

#[test]
fn an_item_is_freed(rt: HostRuntime) -> Result<(), Fail> {
    let alloc = rt.alloc();
    let (clock, mut passes) = two_passes(alloc)?;
    let pass = take_pass(&clock, &mut passes)?;
    let zones = one_zone(alloc, &clock)?;
    assert!(rt; freed_again(&rt, alloc, zones.as_slice(), &clock, pass)? == (1, 1));
    Ok(())
}

/// What a worker of no zone counted of a bind, which is refused.
fn counts_of_bind<R: Wait>(
    rt: &R,
    alloc: Global,
    clock: &Clock<Bare>,
    cache: &Clock<Bare>,
    pass: Pass<Bare>,
) -> Result<NameCounts, Fail>
    requires clock { clock_id clock.now ≡ clock_id cache.now }
    requires pass { IsPassOf clock.now pass }
{
    let mut worker = Worker {
        pass,
        seats: Vec::new(alloc),
        slots: Slots::with_room(alloc, 0)?,
        entered: 0,
        late: 0,
    };
    let mut name_work: NameWork<NoKeys> = NameWork::new(SeatLedger::new());
    let trace = parse(alloc, NO_LINES)?;
    let shared = Shared {
        trace: &trace,
        zones: &[],
        clock,
        names: &NoKeys,
        cache,
        gate: &FreeGate,
        reclaim: &Watch::new(),
    };
    name_work.bind(&mut worker, rt, alloc, &shared, 7, 1)?;
    Ok(name_work.counts)
}

#[test]
fn a_refused_bind_is_no_bind(rt: HostRuntime) -> Result<(), Fail> {
    let alloc = rt.alloc();
    let (clock, mut passes) = two_passes(alloc)?;
    let pass = take_pass(&clock, &mut passes)?;
    let cache = clock.share(alloc)?;
    let counts = counts_of_bind(&rt, alloc, &clock, &cache, pass)?;
    assert!(rt; counts.refused == 1 && counts.binds == 0);
    Ok(())
}
