//! A gate and calls of reclaim that see each other, and count their own calls.
ghost use Rattle.std.specs.Prelude.{⊥};

use crate::{Call, Calls, CountHooks, Counted, Gate, Go, Memory, ReclaimCalls};
use smr_clock::{Clock, Host, Pass};
use std::alloc::Global;
use std::sync::Wait;
use std::sync::atomic::{AtomicU64, Ordering};
use uma_seat::SeatCache;
use uma_zone::Zone;

/// What a watch counted.
#[derive(Clone, Copy, Debug, PartialEq, Eq)]
pub(super) struct Seen {
    /// The calls of reclaim, a digit each: 1 for a trim, 2 for a drain, 3 for a drain of the seat.
    pub(super) calls: u64,
    pub(super) holds: u64,
    pub(super) goes: u64,
    /// How many operations were done and how many told as done, together.
    pub(super) steps: u64,
    /// Calls of the gate for another worker, for another operation than the next one, or at another time than it should be.
    pub(super) strays: u64,
}

/// Watches worker 1, each of whose operations is a line of reclaim. As a gate it holds operation 1 seven times, operation 2 for
/// ever, and any other never.
#[derive(Drop)]
pub(super) struct Watch {
    calls: AtomicU64,
    holds: AtomicU64,
    goes: AtomicU64,
    steps: AtomicU64,
    strays: AtomicU64,
}

impl Watch {
    pub(super) fn new() -> Watch {
        Watch {
            calls: AtomicU64::new(0),
            holds: AtomicU64::new(0),
            goes: AtomicU64::new(0),
            steps: AtomicU64::new(0),
            strays: AtomicU64::new(0),
        }
    }

    pub(super) fn seen(&self) -> Seen {
        Seen {
            calls: self.calls.load(Ordering::SeqCst),
            holds: self.holds.load(Ordering::SeqCst),
            goes: self.goes.load(Ordering::SeqCst),
            steps: self.steps.load(Ordering::SeqCst),
            strays: self.strays.load(Ordering::SeqCst),
        }
    }

    /// Counts a call of the gate as a stray, unless it is of worker 1, who has so many steps left up to the end of the operation.
    fn expect(&self, worker: u32, op: u64, left: u64) {
        if worker != 1 || self.steps.load(Ordering::SeqCst) + left != op * 2 {
            self.strays.fetch_add(1, Ordering::SeqCst);
        }
    }

    /// Holds operation 1 seven times, and operation 2 for ever.
    fn answer(&self, op: u64) -> Go {
        if op == 2 || op == 1 && self.holds.load(Ordering::SeqCst) < 7 {
            self.holds.fetch_add(1, Ordering::SeqCst);
            return Go::Hold;
        }
        self.goes.fetch_add(1, Ordering::SeqCst);
        Go::Go
    }

    fn call(&self, digit: u64) {
        let calls = self.calls.load(Ordering::SeqCst);
        self.calls.store(calls * 10 + digit, Ordering::SeqCst);
        self.steps.fetch_add(1, Ordering::SeqCst);
    }
}

impl Gate for Watch {
    type Visit = Calls;

    ghost is_free = { λ _. ⊥ };

    ghost is_of = { λ _ _. Unit {0} };

    ghost heard = { λ calls. calls };

    fn open(&self) -> Calls {
        Calls::new()
    }

    fn at(&self, calls: &mut Calls, worker: u32, op: u64) -> Go {
        self.expect(worker, op, 2);
        let answer = self.answer(op);
        calls.push(Call::Asked { worker, op, answer });
        answer
    }

    fn done(&self, calls: &mut Calls, worker: u32, op: u64) {
        calls.push(Call::Done { worker, op });
        self.expect(worker, op, 1);
        self.steps.fetch_add(1, Ordering::SeqCst);
    }
}

impl ReclaimCalls for Watch {
    fn trim<H: Host, R: Wait>(
        &self,
        _rt: &R,
        _alloc: Global,
        _zone: &Zone<Counted, CountHooks, H>,
        _clock: &Clock<H>,
        _pass: &mut Pass<H>,
        _seat: &mut SeatCache<Counted, H>,
    ) -> Result<(), Memory> {
        self.call(1);
        Ok(())
    }

    fn drain<H: Host, R: Wait>(
        &self,
        _rt: &R,
        _alloc: Global,
        _zone: &Zone<Counted, CountHooks, H>,
        _clock: &Clock<H>,
        _pass: &mut Pass<H>,
        _seat: &mut SeatCache<Counted, H>,
    ) -> Result<(), Memory> {
        self.call(2);
        Ok(())
    }

    fn drain_seat<H: Host, R: Wait>(
        &self,
        _rt: &R,
        _alloc: Global,
        _zone: &Zone<Counted, CountHooks, H>,
        _clock: &Clock<H>,
        _pass: &mut Pass<H>,
        _seat: &mut SeatCache<Counted, H>,
    ) -> Result<(), Memory> {
        self.call(3);
        Ok(())
    }
}
