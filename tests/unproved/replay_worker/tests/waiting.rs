//! Turns of a worker that waits for its gate.
use super::no_keys::NoKeys;
use super::watching::{Seen, Watch};
use super::{one_zone, take_pass, two_passes};
use crate::{CountedZone, FreeGate, Gate, Shared, Worker, WorkerRun};
use smr_clock::{Bare, Clock};
use std::alloc::Global;
use std::sync::Wait;
use std::test::Fail;
use trace_text::parse;
use zone_stats::SeatLedger;

/// Worker 1 of two has a line of each kind of reclaim, and a second trim in a round of its own.
const TWO_ROUNDS: &[u8] =
    b"uma 1\nworkers 2\ndomains 1\nclock 1 1024\nzone box 256 4 4 0 0 plain\ntrim 1 box\ndrain 1 box\ndrainseat 1 box\nround\ntrim 1 box\nend\n";

/// What the turns of a worker share.
#[derive(Drop)]
struct Setting {
    clock: Clock<Bare>,
    zones: Vec<CountedZone<Bare>>,
}

/// A worker of one zone, before its first turn.
fn idle<R: Wait>(rt: &R, alloc: Global) -> Result<(Setting, WorkerRun<NoKeys>), Fail> {
    let (clock, mut passes) = two_passes(alloc)?;
    let pass = take_pass(&clock, &mut passes)?;
    let zones = one_zone(alloc, &clock)?;
    let worker = Worker::new(rt, alloc, zones.as_slice(), &clock, pass, 0, 0)?;
    let run = WorkerRun::new(worker, SeatLedger::new());
    Ok((Setting { clock, zones }, run))
}

/// Worker 1's turn in a round, where the watch stands for the calls of reclaim.
fn take_turn<R: Wait, G: Gate>(
    rt: &R,
    alloc: Global,
    setting: &Setting,
    run: &mut WorkerRun<NoKeys>,
    gate: &G,
    watch: &Watch,
    round: usize,
) -> Result<(), Fail> {
    let trace = parse(alloc, TWO_ROUNDS)?;
    let cache = setting.clock.share(alloc)?;
    let shared = Shared {
        trace: &trace,
        zones: setting.zones.as_slice(),
        clock: &setting.clock,
        names: &NoKeys,
        cache: &cache,
        gate,
        reclaim: watch,
    };
    Ok(run.turn(rt, alloc, &shared, round, 1)?)
}

#[test]
fn a_gate_that_lets_go_is_asked_once(rt: HostRuntime) -> Result<(), Fail> {
    let alloc = rt.alloc();
    let (setting, mut run) = idle(&rt, alloc)?;
    let watch = Watch::new();
    take_turn(&rt, alloc, &setting, &mut run, &FreeGate, &watch, 1)?;
    assert!(rt; run.asked == 1 && run.gave_up == 0);
    Ok(())
}

/// The 100,000,000 holds are those of one operation, by the gate's own count, and each operation is told once, when it is done.
#[test]
fn a_gate_that_holds_to_the_last_is_passed(rt: HostRuntime) -> Result<(), Fail> {
    let alloc = rt.alloc();
    let (setting, mut run) = idle(&rt, alloc)?;
    let watch = Watch::new();
    take_turn(&rt, alloc, &setting, &mut run, &watch, &watch, 0)?;
    let seen = Seen {
        calls: 123,
        holds: 7 + 100_000_000,
        goes: 2,
        steps: 6,
        strays: 0,
    };
    assert_eq!(rt; watch.seen(), seen);
    assert!(rt; run.asked == 100_000_009 && run.gave_up == 1);
    take_turn(&rt, alloc, &setting, &mut run, &FreeGate, &watch, 1)?;
    assert!(rt; run.asked == 100_000_010 && run.gave_up == 1);
    Ok(())
}
