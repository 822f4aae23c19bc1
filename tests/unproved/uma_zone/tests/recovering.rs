use super::setting::{PLAIN, TestZone, one_pass, zone};
use super::stopped::Stopped;
use super::worker::{Worker, new_worker};
use crate::ZoneSet;
use std::alloc::Global;
use std::sync::Wait;
use std::test::Fail;
use uma_bucket::Sums;
use uma_keg::FetchRefused;
use uma_life::Lives;

/// What a worker does, and how often.
#[derive(Clone, Copy, Debug)]
enum Act {
    Alloc(u32),
    Free(u32),
    Prealloc,
    Flush,
    MakeRoom,
    Settle,
    Enter,
    Exit,
}

/// Buckets of both domains get full, go to the inboxes and the lists and are used again. In a zone with readers the first full
/// bucket inside a section is sealed, and later ones stay loose, since the window is used up.
const ACTS: [Act; 19] = [
    Act::Prealloc,
    Act::Alloc(10),
    Act::Free(9),
    Act::Flush,
    Act::MakeRoom,
    Act::Alloc(6),
    Act::Enter,
    Act::Free(7),
    Act::Flush,
    Act::Alloc(9),
    Act::Free(8),
    Act::MakeRoom,
    Act::Settle,
    Act::Prealloc,
    Act::Exit,
    Act::Alloc(12),
    Act::Settle,
    Act::Free(13),
    Act::Flush,
];

const TWO: ZoneSet = ZoneSet {
    slabs: 16,
    domains: 2,
    ..PLAIN
};

fn times(act: Act) -> u32 {
    match act {
        Act::Alloc(times) | Act::Free(times) => times,
        _ => 1,
    }
}

/// Does an act once.
fn once<R: Wait>(
    rt: &R,
    alloc: Global,
    zone: &TestZone,
    one: &mut Worker,
    act: Act,
) -> Result<(), Stopped> {
    match act {
        Act::Alloc(_) => {
            if one.request_many(rt, alloc, 1)? > 0 {
                return Err(Stopped::Empty);
            }
        }
        Act::Free(_) => one.release(rt, alloc)?,
        Act::Prealloc => match zone.prealloc(rt, alloc, 8, 1) {
            Ok(_) => {}
            Err(FetchRefused::Memory) => return Err(Stopped::Memory),
            Err(_) => return Err(Stopped::Empty),
        },
        Act::Flush => one.flush(rt)?,
        Act::MakeRoom => one.make_room(rt, alloc)?,
        Act::Settle => one.settle(rt)?,
        Act::Enter => one.enter()?,
        Act::Exit => one.exit()?,
    }
    Ok(())
}

/// What the domains list. In a run at most one request for memory is refused, so the second time it is there.
fn listed<R: Wait>(rt: &R, zone: &TestZone) -> Result<Sums, Fail> {
    for _ in 0..2 {
        if let Ok(sums) = zone.sums(rt) {
            return Ok(sums);
        }
    }
    Err(Fail::new("memory is wanting twice"))
}

/// How many items are outside of the keg, likewise.
fn outside<R: Wait>(rt: &R, alloc: Global, zone: &TestZone) -> Result<u64, Fail> {
    for _ in 0..2 {
        if let Ok((census, _)) = zone.census(rt, alloc, Lives::from_vec(Vec::new(alloc))) {
            return Ok(census.outs()[0]);
        }
    }
    Err(Fail::new("memory is wanting twice"))
}

/// How many freed items haven't passed `dtor` yet.
fn deferred<R: Wait>(rt: &R, zone: &TestZone, one: &Worker) -> Result<u64, Fail> {
    let listed = listed(rt, zone)?.deferred;
    Ok(listed.wrapping_add(one.seat.sums().deferred))
}

/// Whether each item outside of the keg is held, listed or on the seat, and each other one of its slabs is free.
fn is_all_there<R: Wait>(
    rt: &R,
    alloc: Global,
    zone: &TestZone,
    one: &Worker,
) -> Result<bool, Fail> {
    let listed = listed(rt, zone)?.tally.keg_inits;
    let seated = one.seat.sums().tally.keg_inits;
    let found = listed.wrapping_add(seated).wrapping_add(one.held.len() as u128);
    let out = outside(rt, alloc, zone)?;
    let counts = zone.counts(rt);
    let made = u64::from(counts.slabs).wrapping_mul(u64::from(counts.per_slab));
    Ok(u128::from(out) == found && counts.free.wrapping_add(out) == made)
}

/// Does an act once, and once more where memory was wanting. Where it is watched the lists are settled before.
fn recover<R: Wait>(
    rt: &R,
    alloc: Global,
    zone: &TestZone,
    one: &mut Worker,
    act: Act,
    watched: bool,
) -> Result<(), Fail> {
    let before = if watched { Some(deferred(rt, zone, one)?) } else { None };
    let (held, ledger, spare) = (one.held.len(), one.seat.ledger(), one.seat.spare());
    match once(rt, alloc, zone, one, act) {
        Err(Stopped::Memory) => {}
        ended => return Ok(ended?),
    }
    if one.held.len() != held || one.seat.ledger() != ledger || one.seat.spare() < spare {
        return Err(Fail::new("want of memory changed what is held or counted"));
    }
    if before.is_some() && before != Some(deferred(rt, zone, one)?) {
        return Err(Fail::new("a freed item passed dtor, or comes back, where memory was wanting"));
    }
    if !is_all_there(rt, alloc, zone, one)? {
        return Err(Fail::new("an item is lost where memory was wanting"));
    }
    match once(rt, alloc, zone, one, act) {
        Err(Stopped::Memory) => Err(Fail::new("memory is wanting twice")),
        ended => Ok(ended?),
    }
}

/// Goes through all acts, and gives back what is held. How many items stay deferred.
fn go_through<R: Wait>(rt: &R, alloc: Global, set: ZoneSet, watched: bool) -> Result<u64, Fail> {
    let (clock, pass) = one_pass(alloc, 4)?;
    let zone = zone(alloc, &clock, 1024, set)?;
    let mut one = new_worker(rt, alloc, &zone, &clock, pass)?;
    // What is held has room, so that no item is lost there.
    one.held.reserve(64)?;
    for act in ACTS {
        for _ in 0..times(act) {
            recover(rt, alloc, &zone, &mut one, act, watched)?;
        }
    }
    if !is_all_there(rt, alloc, &zone, &one)? {
        return Err(Fail::new("an item is lost"));
    }
    deferred(rt, &zone, &one)
}

#[test]
fn no_item_is_lost_by_any_call_that_meets_no_memory(rt: HostRuntime) -> Result<(), Fail> {
    assert_eq!(rt; go_through(&rt, rt.alloc(), TWO, false)?, 0);
    Ok(())
}

#[test]
fn no_freed_item_is_lost_by_any_call_that_meets_no_memory(rt: HostRuntime) -> Result<(), Fail> {
    let deferred = go_through(&rt, rt.alloc(), ZoneSet { smr: true, ..TWO }, false)?;
    assert!(rt; deferred > 0);
    Ok(())
}

#[test]
fn each_freed_item_stays_deferred_where_a_call_meets_no_memory(rt: HostRuntime) -> Result<(), Fail> {
    let deferred = go_through(&rt, rt.alloc(), ZoneSet { smr: true, ..TWO }, true)?;
    assert!(rt; deferred > 0);
    Ok(())
}
