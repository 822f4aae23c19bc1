use super::setting::{PLAIN, one_pass, out, zone};
use super::stopped::Stopped;
use super::worker::new_worker;
use crate::{AllocAsk, ZoneSet};
use std::test::Fail;

#[test]
fn no_item_is_lost_where_an_alloc_meets_no_memory(rt: HostRuntime) -> Result<(), Fail> {
    let (clock, pass) = one_pass(rt.alloc(), 8)?;
    let zone = zone(rt.alloc(), &clock, 1024, ZoneSet { smr: true, ..PLAIN })?;
    let mut one = new_worker(&rt, rt.alloc(), &zone, &clock, pass)?;
    // A bucket of four lies on the shelf, freed inside a section that stays open.
    one.enter()?;
    one.request_many(&rt, rt.alloc(), 4)?;
    one.release_many(&rt, rt.alloc(), 4)?;
    let before = one.seat.ledger();
    let ask = AllocAsk {
        arg: 0,
        reserve: false,
    };
    // It flushes the bucket, looks at it in vain and fetches four items.
    let asked = one.request(&rt, rt.alloc(), ask);
    let usable = one.give_usable(&rt);
    let held = one.held.len() as u64;
    let deferred = zone
        .sums(&rt)?
        .deferred
        .wrapping_add(one.seat.sums().deferred);
    assert_eq!(rt; deferred, 4);
    assert_eq!(rt; out(&rt, rt.alloc(), &zone)?, held.wrapping_add(deferred));
    match asked {
        Ok(refused) => assert!(rt; refused.is_none() && usable == 3 && held == 1),
        Err(why) => {
            assert_eq!(rt; why, Stopped::Memory);
            assert!(rt; usable == 0 && held == 0 && one.seat.ledger() == before);
        }
    }
    Ok(())
}
