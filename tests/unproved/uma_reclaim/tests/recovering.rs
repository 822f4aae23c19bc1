use super::setting::{PLAIN, TestZone, census, keg, one_pass, zone};
use super::stopped::Stopped;
use super::worker::{Worker, new_worker};
use deed_book::Memory;
use std::alloc::Global;
use std::sync::Wait;
use std::test::Fail;
use uma_zone::{AllocAsk, ZoneSet};

/// What a worker does, and how often.
#[derive(Clone, Copy, Debug)]
enum Act {
    Alloc(u32),
    Free(u32),
    MakeRoom,
    Enter,
    Exit,
    Trim,
    Drain,
    DrainSeat,
}

/// Buckets of both domains get full, go to the lists, are used again and go back to the keg. In a zone with readers the first full
/// bucket inside a section is sealed, and later ones stay loose, since the window is used up.
const ACTS: [Act; 20] = [
    Act::Alloc(10),
    Act::Free(9),
    Act::MakeRoom,
    Act::Alloc(6),
    Act::Trim,
    Act::Enter,
    Act::Free(7),
    Act::Alloc(9),
    Act::Free(8),
    Act::MakeRoom,
    Act::Drain,
    Act::Exit,
    Act::Alloc(5),
    Act::MakeRoom,
    Act::Free(6),
    Act::Trim,
    Act::Alloc(3),
    Act::Drain,
    Act::Free(3),
    Act::DrainSeat,
];

const TWO: ZoneSet = ZoneSet {
    slabs: 16,
    domains: 2,
    ..PLAIN
};

fn times(act: Act) -> u32 {
    match act {
        Act::Alloc(times) | Act::Free(times) => times,
        _ => 1,
    }
}

/// Does an act once.
fn once<R: Wait>(rt: &R, alloc: Global, one: &mut Worker, act: Act) -> Result<(), Stopped> {
    match act {
        Act::Alloc(_) => {
            if one.request_many(rt, alloc, 1)? > 0 {
                return Err(Stopped::Empty);
            }
        }
        Act::Free(_) => one.release(rt, alloc)?,
        Act::MakeRoom => one.make_room(rt, alloc)?,
        Act::Enter => one.enter()?,
        Act::Exit => one.exit()?,
        Act::Trim => {
            one.trim(rt, alloc)?;
        }
        Act::Drain => {
            one.drain(rt, alloc)?;
        }
        Act::DrainSeat => {
            one.drain_seat(rt, alloc)?;
        }
    }
    Ok(())
}

/// Whether each item outside of the keg is held, listed or on the seat.
fn is_all_there<R: Wait>(rt: &R, alloc: Global, zone: &TestZone, one: &Worker) -> Result<bool, Memory> {
    let (listed, seated) = one.found(rt)?;
    let (out, _) = census(rt, alloc, zone)?;
    let found = listed.wrapping_add(seated).wrapping_add(one.held.len() as u128);
    Ok(out == found)
}

/// How many items are outside of the keg, and how many freed ones haven't passed `dtor` yet. In a run at most one request for memory is
/// refused, so the second time it is there.
fn stands<R: Wait>(rt: &R, alloc: Global, zone: &TestZone, one: &Worker) -> Result<(u128, u64), Fail> {
    for _ in 0..2 {
        if let (Ok((out, _)), Ok((listed, seated))) = (census(rt, alloc, zone), one.deferred(rt)) {
            return Ok((out, listed.wrapping_add(seated)));
        }
    }
    Err(Fail::new("memory is wanting twice"))
}

/// Whether only what went back to the keg isn't deferred any more.
fn are_deferred(before: (u128, u64), after: (u128, u64)) -> bool {
    after.0 <= before.0 && after.1 <= before.1 && u128::from(before.1 - after.1) <= before.0 - after.0
}

/// Does an act once, and once more where memory was wanting. Where it is watched the lists are settled before.
fn recover<R: Wait>(
    rt: &R,
    alloc: Global,
    zone: &TestZone,
    one: &mut Worker,
    act: Act,
    watched: bool,
) -> Result<(), Fail> {
    let before = if watched { Some(stands(rt, alloc, zone, one)?) } else { None };
    let (held, ledger) = (one.held.len(), one.seat.ledger());
    match once(rt, alloc, one, act) {
        Err(Stopped::Memory) => {}
        ended => return Ok(ended?),
    }
    if one.held.len() != held || one.seat.ledger() != ledger {
        return Err(Fail::new("want of memory changed what is held or counted"));
    }
    if let Some(before) = before {
        if !are_deferred(before, stands(rt, alloc, zone, one)?) {
            return Err(Fail::new("a freed item isn't deferred any more where memory was wanting"));
        }
    }
    match is_all_there(rt, alloc, zone, one) {
        Ok(true) => {}
        Ok(false) => return Err(Fail::new("an item is lost where memory was wanting")),
        Err(Memory) => return Err(Fail::new("memory is wanting twice")),
    }
    match once(rt, alloc, one, act) {
        Err(Stopped::Memory) => Err(Fail::new("memory is wanting twice")),
        ended => Ok(ended?),
    }
}

/// Goes through all acts, and gives back what is held. How many items stay deferred.
fn go_through<R: Wait>(rt: &R, alloc: Global, set: ZoneSet, watched: bool) -> Result<u128, Fail> {
    let (clock, pass) = one_pass(alloc, 4)?;
    let zone = zone(alloc, &clock, 1024, set)?;
    let mut one = new_worker(rt, alloc, &zone, &clock, pass)?;
    // Half of the first slabs are of the other domain. What is held has room, so that no item is lost there.
    zone.prealloc(rt, alloc, 8, 1)?;
    one.held.reserve(64)?;
    for act in ACTS {
        for _ in 0..times(act) {
            recover(rt, alloc, &zone, &mut one, act, watched)?;
        }
    }
    if !is_all_there(rt, alloc, &zone, &one)? {
        return Err(Fail::new("an item is lost"));
    }
    let (slabs, free) = keg(rt, &zone);
    let (listed, seated) = one.found(rt)?;
    if u128::from(slabs).wrapping_mul(4) != u128::from(free).wrapping_add(listed).wrapping_add(seated) {
        return Err(Fail::new("the keg counts others"));
    }
    Ok(listed.wrapping_add(seated))
}

#[test]
fn no_item_is_lost_by_any_call_that_meets_no_memory(rt: HostRuntime) -> Result<(), Fail> {
    assert_eq!(rt; go_through(&rt, rt.alloc(), TWO, false)?, 0);
    Ok(())
}

#[test]
fn no_freed_item_is_lost_by_any_call_that_meets_no_memory(rt: HostRuntime) -> Result<(), Fail> {
    let deferred = go_through(&rt, rt.alloc(), ZoneSet { smr: true, ..TWO }, false)?;
    // What is deferred on the seat stays there.
    assert!(rt; deferred < 8);
    Ok(())
}

#[test]
fn a_freed_item_stays_deferred_or_goes_back_where_a_call_meets_no_memory(rt: HostRuntime) -> Result<(), Fail> {
    let deferred = go_through(&rt, rt.alloc(), ZoneSet { smr: true, ..TWO }, true)?;
    assert!(rt; deferred < 8);
    Ok(())
}
