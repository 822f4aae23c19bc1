use super::setting::{PLAIN, one_pass, out, zone};
use super::worker::{Worker, new_worker};
use crate::{AllocAsk, ZoneSet};
use std::test::Fail;
use uma_keg::FetchRefused;
use zone_stats::Refusal;

const ASK: AllocAsk = AllocAsk {
    arg: 0,
    reserve: false,
};

#[test]
fn a_limit_counts_cached_items_too(rt: HostRuntime) -> Result<(), Fail> {
    let (clock, pass) = one_pass(rt.alloc(), 8)?;
    let zone = zone(rt.alloc(), &clock, 256, ZoneSet { limit: 4, ..PLAIN })?;
    let mut one = new_worker(&rt, rt.alloc(), &zone, &clock, pass)?;
    assert_eq!(rt; one.request_many(&rt, rt.alloc(), 4)?, 0);
    let refused = one.request(&rt, rt.alloc(), ASK)?;
    assert_eq!(rt; refused, Some(Refusal::AtLimit { out: 4, limit: 4 }));
    one.release(&rt, rt.alloc())?;
    assert_eq!(rt; one.request(&rt, rt.alloc(), ASK)?, None);
    let ledger = one.seat.ledger();
    assert!(rt; ledger.requests == 6 && ledger.allocs == 5 && ledger.frees == 1);
    assert!(rt; ledger.fails == 1 && ledger.turned == 1 && ledger.last == refused);
    assert_eq!(rt; zone.counts(&rt).free, 12);
    assert_eq!(rt; out(&rt, rt.alloc(), &zone)?, 4);
    Ok(())
}

#[test]
fn the_reserve_is_for_those_that_may_use_it(rt: HostRuntime) -> Result<(), Fail> {
    let (clock, pass) = one_pass(rt.alloc(), 8)?;
    let set = ZoneSet {
        slabs: 1,
        reserve: 2,
        ..PLAIN
    };
    let zone = zone(rt.alloc(), &clock, 1024, set)?;
    let mut one = new_worker(&rt, rt.alloc(), &zone, &clock, pass)?;
    let may = AllocAsk {
        reserve: true,
        ..ASK
    };
    let asks = [
        (ASK, None),
        (ASK, None),
        (
            ASK,
            Some(Refusal::Reserved {
                free: 2,
                reserve: 2,
            }),
        ),
        (may, None),
        (may, None),
        (may, Some(Refusal::Full { slabs: 1, made: 1 })),
    ];
    for (ask, refused) in asks {
        assert_eq!(rt; one.request(&rt, rt.alloc(), ask)?, refused);
    }
    let ledger = one.seat.ledger();
    assert!(rt; ledger.allocs == 4 && ledger.fails == 2 && ledger.turned == 2);
    Ok(())
}

#[test]
fn an_item_that_ctor_refuses_is_the_next_to_be_built(rt: HostRuntime) -> Result<(), Fail> {
    let (clock, pass) = one_pass(rt.alloc(), 8)?;
    let zone = zone(rt.alloc(), &clock, 256, PLAIN)?;
    let mut one = new_worker(&rt, rt.alloc(), &zone, &clock, pass)?;
    let seven = AllocAsk { arg: 7, ..ASK };
    let refused = one.request(&rt, rt.alloc(), seven)?;
    assert_eq!(rt; refused, Some(Refusal::Ctor { code: 7 }));
    let ledger = one.seat.ledger();
    assert!(rt; ledger.fails == 1 && ledger.turned == 0 && ledger.last == refused);
    assert_eq!(rt; out(&rt, rt.alloc(), &zone)?, 4);
    assert_eq!(rt; zone.counts(&rt).free, 12);
    assert_eq!(rt; one.request(&rt, rt.alloc(), ASK)?, None);
    assert_eq!(rt; out(&rt, rt.alloc(), &zone)?, 4);
    Ok(())
}

#[test]
fn twenty_items_want_two_slabs_of_sixteen(rt: HostRuntime) -> Result<(), Fail> {
    let (clock, _) = one_pass(rt.alloc(), 8)?;
    let zone = zone(rt.alloc(), &clock, 256, PLAIN)?;
    assert_eq!(rt; zone.prealloc(&rt, rt.alloc(), 20, 0)?, 2);
    assert!(rt; zone.counts(&rt).slabs == 2 && zone.counts(&rt).free == 32);
    let full = Refusal::Full { slabs: 4, made: 4 };
    match zone.prealloc(&rt, rt.alloc(), 64, 0) {
        Ok(_) => panic!(rt; "six slabs of four"),
        Err(FetchRefused::Memory) => Err(FetchRefused::Memory)?,
        Err(refused) => assert_eq!(rt; refused, FetchRefused::Refused { refusal: full }),
    }
    assert_eq!(rt; zone.counts(&rt).slabs, 4);
    Ok(())
}

#[test]
fn making_room_takes_the_shelf_to_the_domain(rt: HostRuntime) -> Result<(), Fail> {
    let (clock, pass) = one_pass(rt.alloc(), 8)?;
    let zone = zone(rt.alloc(), &clock, 256, PLAIN)?;
    let mut one = new_worker(&rt, rt.alloc(), &zone, &clock, pass)?;
    one.request_many(&rt, rt.alloc(), 8)?;
    for _ in 0..8 {
        one.release(&rt, rt.alloc())?;
    }
    assert_eq!(rt; one.seat.spare(), 0);
    one.make_room(&rt, rt.alloc())?;
    assert_eq!(rt; one.seat.spare(), 2);
    // They are in the domain's inbox, until somebody settles it.
    assert_eq!(rt; zone.domain(0).count(&rt), 0);
    one.settle(&rt)?;
    assert_eq!(rt; zone.domain(0).count(&rt), 8);
    let Worker { mut seat, .. } = one;
    assert!(rt; seat.take_shelf().is_none());
    Ok(())
}

#[test]
fn what_comes_back_to_the_keg_frees_its_slabs(rt: HostRuntime) -> Result<(), Fail> {
    let (clock, pass) = one_pass(rt.alloc(), 8)?;
    let zone = zone(rt.alloc(), &clock, 1024, PLAIN)?;
    let mut one = new_worker(&rt, rt.alloc(), &zone, &clock, pass)?;
    one.request_many(&rt, rt.alloc(), 4)?;
    one.release_many(&rt, rt.alloc(), 4)?;
    assert!(rt; zone.counts(&rt).slabs == 1 && zone.counts(&rt).free == 0);
    assert_eq!(rt; zone.free_slabs(&rt), 0);
    assert_eq!(rt; one.give_shelf(&rt), Some(4));
    assert_eq!(rt; zone.counts(&rt).free, 4);
    assert_eq!(rt; zone.free_slabs(&rt), 1);
    assert_eq!(rt; zone.counts(&rt).slabs, 0);
    Ok(())
}
