use super::*;
use smr_clock::{Clock, Goal, Pass};
use smr_objects::{Cell, HoldOpened, HoldRefused, Objects, make};
use std::alloc::Global;
use std::sync::atomic::{AtomicU64, Ordering};
use std::test::Fail;
use std::thread::{Threads, join};

const PUBLISHES: u64 = 1000;

/// A clock of one cell, its passes from the last seat on, and the cell.
#[derive(Drop)]
struct Begun {
    clock: Clock<Objects>,
    passes: Vec<Pass<Objects>>,
    cell: Cell,
}

fn begin(alloc: Global, seats: u32, slots: u32) -> Result<Begun, Fail> {
    let opened = make(alloc, seats, 1, 8, 1, slots)?;
    let HoldOpened {
        clock,
        passes,
        cells,
    } = opened;
    let Some(cell) = cells.into_vec().pop() else {
        return Err("no cell".into());
    };
    Ok(Begun {
        clock,
        passes: passes.into_vec(),
        cell,
    })
}

// The read hand goes on as far as the open sections let it, for a new goal, or the last one where an advance is refused.
fn go_on(clock: &Clock<Objects>, pass: &mut Pass<Objects>, last: &mut Option<Goal>) -> bool {
    if let Ok(goal) = clock.advance(pass) {
        *last = Some(goal);
    }
    let mut note = clock.note(pass);
    match last {
        Some(goal) => clock.poll(&mut note, goal),
        None => false,
    }
}

fn causes(said: Result<u64, PublishRefused>) -> Option<(SlotCause, SlotCause)> {
    match said {
        Err(PublishRefused::Crowded { causes }) => Some((causes.cause(0), causes.cause(1))),
        _ => None,
    }
}

#[test]
fn a_held_slot_keeps_its_value_and_is_written_again_once_it_is_let_go(rt: HostRuntime) -> Result<(), Fail> {
    let Begun {
        clock,
        mut passes,
        mut cell,
    } = begin(rt.alloc(), 2, 2)?;
    let (Some(mut other), Some(mut reader)) = (passes.pop(), passes.pop()) else {
        return Err("no passes".into());
    };
    clock.enter(&mut reader)?;
    assert_eq!(rt; look(&clock, &mut reader, 0), None);
    clock.exit(&mut reader);
    assert_eq!(rt; publish(&clock, &mut cell, 10).ok(), Some(1));
    clock.enter(&mut reader)?;
    let seen = Look {
        value: 10,
        version: 1,
        slot: 0,
    };
    assert_eq!(rt; look(&clock, &mut reader, 0), Some(seen));
    let held = hold(&clock, &mut reader, 0, 0);
    clock.exit(&mut reader);
    assert_eq!(rt; publish(&clock, &mut cell, 20).ok(), Some(2));
    assert_eq!(rt; causes(publish(&clock, &mut cell, 30)), Some((SlotCause::Unripe { read: 1, stamp: 3 }, SlotCause::Current)));
    assert!(rt; go_on(&clock, &mut other, &mut None));
    assert_eq!(rt; causes(publish(&clock, &mut cell, 30)), Some((SlotCause::Held { holds: 1 }, SlotCause::Current)));
    assert_eq!(rt; read(&clock, &mut reader, &held), 10);
    release(&clock, &mut reader, held);
    assert_eq!(rt; publish(&clock, &mut cell, 30).ok(), Some(3));
    assert_eq!(rt; (cell.version(), cell.current()), (3, Some(0)));
    Ok(())
}

#[test]
fn counts_out_of_range_are_refused_in_order(rt: HostRuntime) -> Result<(), Fail> {
    let alloc = rt.alloc();
    assert!(rt; matches!(make(alloc, 2, 1, 8, 1, 1), Err(HoldRefused::Slots { slots: 1 })));
    assert!(rt; matches!(make(alloc, 2, 1, 8, 1, 17), Err(HoldRefused::Slots { slots: 17 })));
    assert!(rt; matches!(make(alloc, 0, 1, 8, 0, 1), Err(HoldRefused::Cells { cells: 0 })));
    assert!(rt; matches!(make(alloc, 0, 1, 8, 4097, 2), Err(HoldRefused::Cells { cells: 4097 })));
    assert!(rt; matches!(make(alloc, 0, 1, 8, 1, 2), Err(HoldRefused::Clock { .. })));
    Ok(())
}

// Looks, holds what it found and reads it outside of the section, until the writer has gone, and once more. How often it held, or
// None where a read wasn't what the look had found.
fn holds_on(clock: &Clock<Objects>, gone: &AtomicU64, mut pass: Pass<Objects>, comes: bool) -> Option<u64> {
    let mut held = 0;
    let mut last = false;
    while !last {
        last = gone.load(Ordering::SeqCst) != 0;
        if clock.enter(&mut pass).is_err() {
            continue;
        }
        let Some(seen) = look(clock, &mut pass, 0) else {
            clock.exit(&mut pass);
            continue;
        };
        let hold = hold(clock, &mut pass, 0, seen.slot);
        clock.exit(&mut pass);
        for _ in 0..20 {
            if read(clock, &mut pass, &hold) != seen.value {
                return None;
            }
        }
        if comes {
            pass = clock.come(clock.leave(pass));
        }
        if read(clock, &mut pass, &hold) != seen.value {
            return None;
        }
        release(clock, &mut pass, hold);
        held += 1;
    }
    Some(held)
}

fn publishes(clock: &Clock<Objects>, gone: &AtomicU64, mut cell: Cell, mut pass: Pass<Objects>) -> u64 {
    let mut last = 0;
    let mut goal = None;
    while last < PUBLISHES {
        match publish(clock, &mut cell, 7 * last + 3) {
            Ok(version) => last = version,
            Err(_) => {
                let _ = go_on(clock, &mut pass, &mut goal);
            }
        }
    }
    gone.store(1, Ordering::SeqCst);
    last
}

fn run<R: Threads + Sync>(rt: &R, alloc: Global, comes: bool) -> Result<(u64, u64, u64), Fail> {
    let Begun {
        clock,
        mut passes,
        cell,
    } = begin(alloc, 3, 4)?;
    let (Some(third), Some(second), Some(first)) = (passes.pop(), passes.pop(), passes.pop()) else {
        return Err("no passes".into());
    };
    let gone = AtomicU64::new(0);
    // Where no thread can be made `join` calls its second closure first: so the writer, for which readers wait, is second.
    let ((one, other), last) = join(
        rt,
        || join(rt, || holds_on(&clock, &gone, first, comes), || holds_on(&clock, &gone, second, comes)),
        || publishes(&clock, &gone, cell, third),
    );
    let (Some(one), Some(other)) = (one, other) else {
        return Err("a read differs from its look".into());
    };
    Ok((last, one, other))
}

#[test]
fn each_hold_reads_what_its_look_found(rt: HostRuntime) -> Result<(), Fail> {
    let (last, one, other) = run(&rt, rt.alloc(), false)?;
    assert_eq!(rt; last, PUBLISHES);
    assert!(rt; one > 0 && other > 0);
    Ok(())
}

#[test]
fn so_does_that_of_a_reader_that_leaves_and_comes(rt: HostRuntime) -> Result<(), Fail> {
    let (last, one, other) = run(&rt, rt.alloc(), true)?;
    assert_eq!(rt; last, PUBLISHES);
    assert!(rt; one > 0 && other > 0);
    Ok(())
}
