ghost use Rattle.std.specs.Prelude.{◌≡◌, [], Ok};
ghost use Rattle.smr_core.specs.declared.holder.Phase.{Phase};
ghost use Rattle.smr_clock.specs.Belongs.{IsPassOf, clock_id, holder};
ghost use Rattle.smr_deferred.specs.RetireList.{IsUsedWith};

use super::*;
use smr_clock::{Bare, Clock, Pass};
use std::alloc::{AllocError, Global};
use std::sync::atomic::{AtomicU64, Ordering};
use std::test::Fail;
use std::thread::{Threads, join};

const TURNS: u64 = 5000;

/// How many boxes there are: the one that readers find, and those that wait or are free.
const BOXES: u64 = 8;

/// The stamps of all boxes, and the number of the box that readers find.
struct Shelf {
    stamps: [AtomicU64; 8],
    found: AtomicU64,
}

impl Shelf {
    fn new() -> Shelf {
        Shelf {
            stamps: [
                AtomicU64::new(0),
                AtomicU64::new(0),
                AtomicU64::new(0),
                AtomicU64::new(0),
                AtomicU64::new(0),
                AtomicU64::new(0),
                AtomicU64::new(0),
                AtomicU64::new(0),
            ],
            found: AtomicU64::new(0),
        }
    }

    fn stamp(&self, number: u64) -> &AtomicU64 {
        &self.stamps[(number % BOXES) as usize]
    }
}

impl Drop for Shelf {
    fn drop(self) {
        let Shelf { stamps: _, found: _ } = self;
    }
}

// Looks many times at the stamp of one box inside a section. How often it had changed.
fn look(shelf: &Shelf, clock: &Clock<Bare>, pass: &mut Pass<Bare>) -> u64
    requires here { IsPassOf clock.now pass.old }
    requires outside { (holder pass.old).phase ≡ Phase.Outside }
    ensures here { IsPassOf clock.now pass.new }
    ensures outside { (holder pass.new).phase ≡ Phase.Outside }
{
    let Ok(()) = clock.enter(pass) else {
        return 0;
    };
    let stamp = shelf.stamp(shelf.found.load(Ordering::SeqCst));
    let first = stamp.load(Ordering::SeqCst);
    let mut changed = 0;
    for _ in 0..100 {
        if stamp.load(Ordering::SeqCst) != first {
            changed += 1;
        }
    }
    clock.exit(pass);
    changed
}

fn looks(shelf: &Shelf, clock: &Clock<Bare>, mut pass: Pass<Bare>) -> u64
    requires here { IsPassOf clock.now pass }
    requires outside { (holder pass).phase ≡ Phase.Outside }
{
    let mut changed = 0;
    for _ in 0..TURNS {
        changed += look(shelf, clock, &mut pass);
    }
    changed
}

/// What the writer has: the boxes that are free, the one that readers find, and those that wait.
struct Writer<'a> {
    shelf: &'a Shelf,
    clock: &'a Clock<Bare>,
    pass: Pass<Bare>,
    list: RetireList<Box<u64>, Bare>,
    free: Vec<Box<u64>>,
    found: Box<u64>,
    // How many boxes came back, and whether each was another than the one that readers find.
    reaped: u64,
    apart: bool,
}

impl Drop for Writer<'_> {
    fn drop(self) {
        let Writer {
            shelf: _,
            clock: _,
            pass: _,
            list: _,
            free: _,
            found: _,
            reaped: _,
            apart: _,
        } = self;
    }
}

impl Writer<'_> {
    fn reap_all(&mut self) -> Result<(), AllocError> {
        for _ in 0..BOXES {
            let Ok(Some(other)) = self.list.reap(self.clock, &mut self.pass) else {
                return Ok(());
            };
            self.apart &= *other != *self.found;
            self.reaped += 1;
            self.free.push(other)?;
        }
        Ok(())
    }

    // Stamps a free box anew, lets readers find it, and retires the one before.
    fn turn(&mut self, alloc: Global, turn: u64) -> Result<(), AllocError> {
        self.reap_all()?;
        let Some(next) = self.free.pop() else {
            let _ = self.list.push(self.clock, &mut self.pass);
            return Ok(());
        };
        self.shelf.stamp(*next).store(turn, Ordering::SeqCst);
        self.shelf.found.store(*next, Ordering::SeqCst);
        let before = std::mem::replace(&mut self.found, next);
        match self.list.retire(alloc, self.clock, &mut self.pass, before) {
            Ok(()) => Ok(()),
            Err((_, RetireRefused::Memory)) => Err(AllocError),
            Err((_, RetireRefused::Spent { .. })) => {
                self.apart = false;
                Ok(())
            }
        }
    }

    // How many boxes came back, and whether none of them was one that readers find.
    fn turns(mut self, alloc: Global) -> Result<(u64, bool), AllocError> {
        for number in 1..=TURNS {
            self.turn(alloc, number)?;
        }
        Ok((self.reaped, self.apart))
    }
}

// Of two threads, one turns and the other looks: how many boxes came back, and how many stamps had changed.
fn both<R: Threads + Sync>(
    rt: &R,
    alloc: Global,
    shelf: &Shelf,
    clock: &Clock<Bare>,
    reader: Pass<Bare>,
    writer: Writer<'_>,
) -> (Result<(u64, bool), AllocError>, u64) {
    join(
        rt,
        move || writer.turns(alloc),
        move || looks(shelf, clock, reader),
    )
}

#[test]
fn no_stamp_changes_inside_a_section(rt: HostRuntime) -> Result<(), Fail> {
    for limit in [1, 3] {
        let (clock, mut passes) = Clock::<Bare>::new(rt.alloc(), 2, 1, 8)?;
        let (Some(reader), Some(pass)) = (passes.pop(), passes.pop()) else {
            unreachable!()
        };
        let shelf = Shelf::new();
        let mut free = Vec::new(rt.alloc());
        for number in 1..BOXES {
            free.push(Box::new(rt.alloc(), number)?)?;
        }
        let writer = Writer {
            shelf: &shelf,
            clock: &clock,
            pass,
            list: RetireList::new(rt.alloc(), limit)?,
            free,
            found: Box::new(rt.alloc(), 0)?,
            reaped: 0,
            apart: true,
        };
        let (reaped, changed) = both(&rt, rt.alloc(), &shelf, &clock, reader, writer);
        assert_eq!(rt; changed, 0);
        let (count, apart) = reaped?;
        assert!(rt; apart && count > 0);
    }
    Ok(())
}

/// A value that may not be let go of.
struct Bound {
    number: u32,
}

#[test]
fn values_that_may_not_be_dropped_come_back(rt: HostRuntime) -> Result<(), Fail> {
    let (clock, mut passes) = Clock::<Bare>::new(rt.alloc(), 1, 1, 8)?;
    let Some(mut pass) = passes.pop() else {
        unreachable!()
    };
    let mut list = RetireList::new(rt.alloc(), 1)?;
    match list.retire(rt.alloc(), &clock, &mut pass, Bound { number: 7 }) {
        Ok(()) => {}
        Err((Bound { number }, refused)) => {
            list.destroy_empty();
            assert_eq!(rt; number, 7);
            return Err(refused)?;
        }
    }
    let back = match list.reap(&clock, &mut pass) {
        Ok(Some(Bound { number })) => number,
        _ => unreachable!(),
    };
    list.destroy_empty();
    assert_eq!(rt; back, 7);
    Ok(())
}
