//! Operations that wait: for those of another worker, or to the last.
use super::*;
use crate::replaying::Status;
use std::sync::atomic::{AtomicBool, Ordering};
use uma_replay::{Call, Calls, Go};

/// Holds worker 0's first operation until worker 1's first one is done, and worker 1's second one until both are, in this order.
#[derive(Drop)]
struct SecondFirst {
    done: AtomicBool,
    in_order: AtomicBool,
}

impl Gate for SecondFirst {
    type Visit = Calls;

    ghost is_free = { λ _. ⊥ };

    ghost is_of = { λ _ _. Unit {0} };

    ghost heard = { λ calls. calls };

    fn open(&self) -> Calls {
        Calls::new()
    }

    fn at(&self, calls: &mut Calls, worker: u32, op: u64) -> Go {
        let first = worker == 0 && op == 1 && !self.done.load(Ordering::SeqCst);
        let second = worker == 1 && op == 2 && !self.in_order.load(Ordering::SeqCst);
        let answer = if first || second { Go::Hold } else { Go::Go };
        calls.push(Call::Asked { worker, op, answer });
        answer
    }

    fn done(&self, calls: &mut Calls, worker: u32, op: u64) {
        calls.push(Call::Done { worker, op });
        if worker == 1 && op == 1 {
            self.done.store(true, Ordering::SeqCst);
        }
        if worker == 0 && op == 1 {
            let in_order = self.done.load(Ordering::SeqCst);
            self.in_order.store(in_order, Ordering::SeqCst);
        }
    }
}

/// Traces, and how many of their operations give up waiting.
fn rounds() -> [(&'static str, u64); 3] {
    [
        (
            "uma 1\nworkers 2\ndomains 1\nzone box 256 4 4 0 0 plain\nalloc 0 box 0\nalloc 1 box 0\nend\n",
            0,
        ),
        // No order of whole turns on one thread goes through all three.
        (
            "uma 1\nworkers 2\ndomains 1\nzone box 256 4 4 0 0 plain\nalloc 0 box 0\nalloc 1 box 0\nalloc 1 box 1\nend\n",
            0,
        ),
        // Nobody lets this one go.
        (
            "uma 1\nworkers 1\ndomains 1\nzone box 256 4 4 0 0 plain\nalloc 0 box 0\nend\n",
            1,
        ),
    ]
}

#[test]
fn the_workers_of_a_round_run_at_the_same_time_and_each_waits_for_its_gate(
    rt: HostRuntime,
) -> Result<(), Fail> {
    for (input, gave_up) in rounds() {
        let gate = SecondFirst {
            done: AtomicBool::new(false),
            in_order: AtomicBool::new(false),
        };
        let finish = replayed_under(&rt, input, &gate)?;
        assert_eq!(rt; finish.status, Status::Good, "{input}");
        let report = finish.report.expect(&rt, "a report");
        assert_eq!(rt; report.gave_up, gave_up, "{input}");
        assert_eq!(rt;
            gate.in_order.load(Ordering::SeqCst),
            gave_up == 0,
            "{input}"
        );
    }
    Ok(())
}

/// Holds each worker's first operation of a round to the last.
#[derive(Clone, Copy, Debug, PartialEq, Eq)]
struct FirstHeld;

impl Gate for FirstHeld {
    type Visit = Calls;

    ghost is_free = { λ _. ⊥ };

    ghost is_of = { λ _ _. Unit {0} };

    ghost heard = { λ calls. calls };

    fn open(&self) -> Calls {
        Calls::new()
    }

    fn at(&self, calls: &mut Calls, worker: u32, op: u64) -> Go {
        let answer = if op == 1 { Go::Hold } else { Go::Go };
        calls.push(Call::Asked { worker, op, answer });
        answer
    }

    fn done(&self, calls: &mut Calls, worker: u32, op: u64) {
        calls.push(Call::Done { worker, op });
    }
}

/// Worker 0 has operations in the first round alone, worker 1 in both.
const TWO_ROUNDS: &str =
    "uma 1\nworkers 2\ndomains 1\nzone box 256 4 4 0 0 plain\nalloc 0 box 0\nalloc 0 box 1\nalloc 1 box 0\nround\nfree 1 0\nend\n";

/// Worker 0 gives up once, and worker 1 in each of two rounds.
#[test]
fn a_report_has_the_givings_up_of_all_workers_in_all_rounds(rt: HostRuntime) -> Result<(), Fail> {
    let finish = replayed_under(&rt, TWO_ROUNDS, &FirstHeld)?;
    assert_eq!(rt; finish.status, Status::Good);
    let report = finish.report.expect(&rt, "a report");
    assert_eq!(rt; report.gave_up, 3);
    Ok(())
}
