ghost use Rattle.std.specs.Prelude.{◌≡◌, ◌<◌, ◌≤◌, ◌%◌, IfOk, IsTrue, None, length};
ghost use Rattle.replay_rounds.specs.Beginners.{AreBeginners, IsBeginner};
ghost use Rattle.replay_rounds.specs.Setting.{IsSetUp};
ghost use Rattle.trace_text.specs.Valid.{IsValid};
ghost use Rattle.replay_worker.specs.OwnLines.{own_ops};
ghost use Rattle.replay_worker.specs.Worker.{AreOfClock};

use crate::{Call, Calls, Gate, Go, Memory, ReclaimCalls};
use smr_clock::{Bare, Clock, Host, Pass};
use std::alloc::Global;
use std::sync::Wait;
use std::sync::atomic::{AtomicBool, Ordering};
use std::test::Fail;
use replay_rounds::{NoSeat, PlainNames, Setting, set_up};
use trace_text::{Trace, parse};
use replay_worker::{CountHooks, Counted, CountedZone, Shared, Worker, WorkerRun};
use uma_seat::SeatCache;
use uma_zone::Zone;

/// Each of two workers gets an item.
const TWO_WORKERS: &[u8] =
    b"uma 1\nworkers 2\ndomains 1\nzone box 256 4 4 0 0 plain\nalloc 0 box 0\nalloc 1 box 0\nend\n";

/// Holds worker 0's first operation until worker 1's first one is done.
#[derive(Drop)]
struct SecondFirst {
    done: AtomicBool,
}

impl Gate for SecondFirst {
    type Visit = Calls;

    ghost is_free = { λ _. ⊥ };

    ghost is_of = { λ _ _. Unit {0} };

    ghost heard = { λ calls. calls };

    fn open(&self) -> Calls {
        Calls::new()
    }

    fn at(&self, calls: &mut Calls, worker: u32, op: u64) -> Go {
        let held = worker == 0 && op == 1 && !self.done.load(Ordering::SeqCst);
        let answer = if held { Go::Hold } else { Go::Go };
        calls.push(Call::Asked { worker, op, answer });
        answer
    }

    fn done(&self, calls: &mut Calls, worker: u32, op: u64) {
        calls.push(Call::Done { worker, op });
        if worker == 1 && op == 1 {
            self.done.store(true, Ordering::SeqCst);
        }
    }
}

/// Stands for the calls of reclaim, of which the trace has no line.
#[derive(Clone, Copy, Debug, PartialEq, Eq)]
struct NoReclaim;

impl ReclaimCalls for NoReclaim {
    fn trim<H: Host, R: Wait>(
        &self,
        _rt: &R,
        _alloc: Global,
        _zone: &Zone<Counted, CountHooks, H>,
        _clock: &Clock<H>,
        _pass: &mut Pass<H>,
        _seat: &mut SeatCache<Counted, H>,
    ) -> Result<(), Memory> {
        Err(Memory)
    }

    fn drain<H: Host, R: Wait>(
        &self,
        _rt: &R,
        _alloc: Global,
        _zone: &Zone<Counted, CountHooks, H>,
        _clock: &Clock<H>,
        _pass: &mut Pass<H>,
        _seat: &mut SeatCache<Counted, H>,
    ) -> Result<(), Memory> {
        Err(Memory)
    }

    fn drain_seat<H: Host, R: Wait>(
        &self,
        _rt: &R,
        _alloc: Global,
        _zone: &Zone<Counted, CountHooks, H>,
        _clock: &Clock<H>,
        _pass: &mut Pass<H>,
        _seat: &mut SeatCache<Counted, H>,
    ) -> Result<(), Memory> {
        Err(Memory)
    }
}

/// How many operations a worker's list of the first round has.
fn own_count(trace: &Trace, number: usize) -> usize
    ensures { result ≡ length (own_ops trace.now.rounds 0 number) }
{
    let Some(round) = trace.rounds.as_slice().first() else {
        return 0;
    };
    let Some(ops) = round.ops.as_slice().get(number) else {
        return 0;
    };
    ops.as_slice().len()
}

/// Whether the trace has no names line.
fn has_no_names(trace: &Trace) -> bool
    ensures { IsTrue result → trace.now.head.names ≡ None }
{
    trace.head.names.is_none()
}

/// Whether a worker has a list of the first round, and a short one.
fn has_turn(trace: &Trace, number: usize) -> bool
    ensures round { IsTrue result → 0 < length trace.now.rounds }
    ensures worker { IsTrue result → number < trace.now.head.workers }
    ensures few { IsTrue result → length (own_ops trace.now.rounds 0 number) ≤ 1000 }
{
    !trace.rounds.as_slice().is_empty()
        && number < trace.head.workers as usize
        && own_count(trace, number) <= 1000
}

/// A worker's turn in the first round, on the thread that calls: how often its gate was asked, and how often it gave up.
fn first_turn<R: Wait, G: Gate>(
    rt: &R,
    alloc: Global,
    trace: &Trace,
    zones: &[CountedZone<Bare>],
    clock: &Clock<Bare>,
    gate: &G,
    number: usize,
    worker: Worker<Bare>,
) -> Result<(u64, u64), Fail>
    requires valid { IsValid trace.now }
    requires zone_count { length zones.now ≡ length trace.now.head.zones }
    requires of_clock { AreOfClock clock.now zones.now }
    requires names { trace.now.head.names ≡ None }
    requires beginner { IsBeginner zones.now clock.now (number % trace.now.head.domains) worker }
{
    if !has_turn(trace, number) {
        return Err(Fail::new("no such turn"));
    }
    let mut run: WorkerRun<PlainNames> = WorkerRun::new(worker, NoSeat);
    let shared = Shared {
        trace,
        zones,
        clock,
        names: &PlainNames,
        cache: clock,
        gate,
        reclaim: &NoReclaim,
    };
    run.turn(rt, alloc, &shared, 0, number)?;
    Ok((run.asked, run.gave_up))
}

/// Takes the last worker.
fn take_last(
    trace: &Trace,
    zones: &[CountedZone<Bare>],
    clock: &Clock<Bare>,
    workers: &mut Vec<Worker<Bare>>,
) -> Result<Worker<Bare>, Fail>
    requires { AreBeginners zones.now clock.now trace.now.head.domains (length workers.old.items) workers.old.items }
    ensures left { AreBeginners zones.now clock.now trace.now.head.domains (length workers.new.items) workers.new.items }
    ensures last { IfOk result (IsBeginner zones.now clock.now (length workers.new.items % trace.now.head.domains)) }
{
    match workers.pop() {
        Some(worker) => Ok(worker),
        None => Err(Fail::new("no worker")),
    }
}

/// The first turns of the last two workers, one after another on this thread, the first of them first.
fn two_turns<R: Wait, G: Gate>(
    rt: &R,
    alloc: Global,
    trace: &Trace,
    gate: &G,
    setting: Setting<Bare>,
) -> Result<[(u64, u64); 2], Fail>
    requires valid { IsValid trace.now }
    requires names { trace.now.head.names ≡ None }
    requires set_up { IsSetUp trace.now setting }
{
    let Setting {
        clock,
        zones,
        mut workers,
        ..
    } = setting;
    let zones = zones.as_slice();
    let second = take_last(trace, zones, &clock, &mut workers)?;
    let number = workers.len();
    let first = take_last(trace, zones, &clock, &mut workers)?;
    let of_first = first_turn(rt, alloc, trace, zones, &clock, gate, workers.len(), first)?;
    let of_second = first_turn(rt, alloc, trace, zones, &clock, gate, number, second)?;
    Ok([of_first, of_second])
}

#[test]
fn workers_one_after_another_wait_for_nobody(rt: HostRuntime) -> Result<(), Fail> {
    let gate = SecondFirst {
        done: AtomicBool::new(false),
    };
    let trace = parse(rt.alloc(), TWO_WORKERS)?;
    if !has_no_names(&trace) {
        return Err(Fail::new("names"));
    }
    let setting = set_up(&rt, rt.alloc(), &trace)?;
    let counts = two_turns(&rt, rt.alloc(), &trace, &gate, setting)?;
    assert_eq!(rt; counts, [(100_000_000, 1), (1, 0)]);
    Ok(())
}
