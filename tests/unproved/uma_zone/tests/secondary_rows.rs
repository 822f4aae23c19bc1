use super::setting::{PLAIN, new_clock, out, second, take_pass, zone};
use super::worker::new_worker;
use crate::SecondSet;
use std::test::Fail;
use uma_life::{Body, ZoneTally};

const SECOND: SecondSet = SecondSet {
    bucket: 4,
    limit: 0,
    smr: false,
};

#[test]
fn an_item_passes_init_and_fini_of_each_zone_that_it_stays_in(rt: HostRuntime) -> Result<(), Fail> {
    let (clock, mut passes) = new_clock(rt.alloc(), 3, 8)?;
    let mut base = zone(rt.alloc(), &clock, 512, PLAIN)?;
    let first = second(&rt, rt.alloc(), &mut base, SECOND)?;
    let other = second(&rt, rt.alloc(), &mut base, SECOND)?;

    let pass = take_pass(&clock, &mut passes)?;
    let mut at_base = new_worker(&rt, rt.alloc(), &base, &clock, pass)?;
    assert_eq!(rt; at_base.request_many(&rt, rt.alloc(), 1)?, 0);
    let pass = take_pass(&clock, &mut passes)?;
    let mut at_first = new_worker(&rt, rt.alloc(), &first, &clock, pass)?;
    assert_eq!(rt; at_first.request_many(&rt, rt.alloc(), 1)?, 0);
    at_first.release(&rt, rt.alloc())?;
    assert_eq!(rt; at_first.give_usable(&rt), 4);
    let pass = take_pass(&clock, &mut passes)?;
    let mut at_other = new_worker(&rt, rt.alloc(), &other, &clock, pass)?;
    assert_eq!(rt; at_other.request_many(&rt, rt.alloc(), 1)?, 0);

    let Some(live) = at_other.held.last() else {
        panic!(rt; "nothing is held")
    };
    let tally = live.body().tally();
    let stayed = ZoneTally {
        inits: 1,
        ctors: 1,
        dtors: 1,
        finis: 1,
    };
    let stays = ZoneTally {
        inits: 1,
        ctors: 1,
        dtors: 0,
        finis: 0,
    };
    assert!(rt; live.no() == 7 && tally.keg_inits == 1);
    assert!(rt; tally.zones[1] == stayed && tally.zones[2] == stays);
    assert!(rt; base.counts(&rt).slabs == 1 && base.counts(&rt).free == 0);
    assert_eq!(rt; out(&rt, rt.alloc(), &base)?, 4);
    Ok(())
}

#[test]
fn a_secondary_zone_has_a_limit_of_its_own(rt: HostRuntime) -> Result<(), Fail> {
    let (clock, mut passes) = new_clock(rt.alloc(), 2, 8)?;
    let mut base = zone(rt.alloc(), &clock, 512, PLAIN)?;
    let set = SecondSet { limit: 2, ..SECOND };
    let narrow = second(&rt, rt.alloc(), &mut base, set)?;
    let pass = take_pass(&clock, &mut passes)?;
    let mut one = new_worker(&rt, rt.alloc(), &narrow, &clock, pass)?;
    assert_eq!(rt; one.request_many(&rt, rt.alloc(), 5)?, 3);
    let pass = take_pass(&clock, &mut passes)?;
    let mut other = new_worker(&rt, rt.alloc(), &base, &clock, pass)?;
    assert_eq!(rt; other.request_many(&rt, rt.alloc(), 5)?, 0);
    Ok(())
}
