use super::setting::new_cache;
use super::worker::{Worker, new_worker};
use crate::{BindRefused, NameCache};
use deed_book::Memory;
use std::alloc::Global;
use std::sync::Wait;
use std::test::Fail;

/// Names more than the rows, so that some are evicted.
const KEYS: u64 = 12;
const ROUNDS: u64 = 3;

/// Whether each entry outside of the keg is linked, listed or on the seat: each passed `keg_init` once.
fn is_all_there<R: Wait>(
    rt: &R,
    alloc: Global,
    cache: &NameCache,
    one: &Worker,
) -> Result<bool, Memory> {
    let listed = cache.sums(rt)?.tally.keg_inits;
    let seated = one.seat.sums().tally.keg_inits;
    let census = cache.census(rt, alloc)?;
    Ok(u128::from(census.outs()[0]) == listed.wrapping_add(seated))
}

/// Binds a key, and once more where memory was wanting: in a run at most one request for memory is refused.
fn bind<R: Wait>(
    rt: &R,
    alloc: Global,
    cache: &NameCache,
    one: &mut Worker,
    key: u64,
    value: u64,
) -> Result<(), Fail> {
    let (before, ledger) = (one.look(key)?, one.seat.ledger());
    match one.try_bind(rt, alloc, key, value) {
        Some(Ok(_)) => return Ok(()),
        Some(Err(BindRefused::Memory)) => {}
        _ => return Err(Fail::new("a bind is refused")),
    }
    if one.look(key)? != before || one.seat.ledger() != ledger {
        return Err(Fail::new("want of memory changed the row or the ledger"));
    }
    match is_all_there(rt, alloc, cache, one) {
        Ok(true) => {}
        Ok(false) => return Err(Fail::new("an entry is lost by a bind")),
        Err(Memory) => return Err(Fail::new("memory is wanting twice")),
    }
    match one.try_bind(rt, alloc, key, value) {
        Some(Ok(_)) => Ok(()),
        _ => Err(Fail::new("a bind is refused where memory is there")),
    }
}

/// Takes a key out, likewise. Its value, if it was bound.
fn unbind<R: Wait>(
    rt: &R,
    alloc: Global,
    cache: &NameCache,
    one: &mut Worker,
    key: u64,
) -> Result<Option<u64>, Fail> {
    let (before, ledger) = (one.look(key)?, one.seat.ledger());
    if let Ok(out) = one.try_unbind(rt, alloc, key)? {
        return Ok(out.map(|(value, _)| value));
    }
    if one.look(key)? != before || one.seat.ledger() != ledger {
        return Err(Fail::new("want of memory changed the row or the ledger"));
    }
    match is_all_there(rt, alloc, cache, one) {
        Ok(true) => {}
        Ok(false) => return Err(Fail::new("an entry is lost by an unbind")),
        Err(Memory) => return Err(Fail::new("memory is wanting twice")),
    }
    match one.try_unbind(rt, alloc, key)? {
        Ok(out) => Ok(out.map(|(value, _)| value)),
        Err(Memory) => Err(Fail::new("memory is wanting twice")),
    }
}

#[test]
fn no_entry_is_lost_where_a_bind_or_an_unbind_meets_no_memory(rt: HostRuntime) -> Result<(), Fail> {
    let alloc = rt.alloc();
    let (cache, clock, passes) = new_cache(alloc, 8, 2, 0)?;
    let mut one = new_worker(&rt, alloc, &cache, &clock, passes)?;
    for round in 0..ROUNDS {
        for key in 0..KEYS {
            bind(&rt, alloc, &cache, &mut one, key, round)?;
            assert_eq!(rt; one.look(key)?, Some(round));
        }
        for key in 0..KEYS {
            // The last four evicted the first four.
            let bound = if key < 4 { None } else { Some(round) };
            assert_eq!(rt; unbind(&rt, alloc, &cache, &mut one, key)?, bound);
            assert_eq!(rt; one.look(key)?, None);
        }
        assert!(rt; is_all_there(&rt, alloc, &cache, &one)?);
    }
    Ok(())
}
