use super::setting::{PLAIN, census, keg, one_pass, zone};
use super::worker::new_worker;
use deed_book::Memory;
use std::test::Fail;
use uma_zone::ZoneSet;

const TWO: ZoneSet = ZoneSet {
    domains: 2,
    ..PLAIN
};

#[test]
fn no_item_is_lost_where_a_drain_meets_no_memory(rt: HostRuntime) -> Result<(), Fail> {
    let (clock, pass) = one_pass(rt.alloc(), 8)?;
    let zone = zone(rt.alloc(), &clock, 1024, TWO)?;
    let mut one = new_worker(&rt, rt.alloc(), &zone, &clock, pass)?;
    zone.prealloc(&rt, rt.alloc(), 4, 1)?;
    one.request_many(&rt, rt.alloc(), 10)?;
    one.release_many(&rt, rt.alloc(), 10)?;
    // Four are usable on the seat. On its shelf is a full bucket of each domain, which the drain has to list first.
    assert!(rt; one.found(&rt)? == (0, 12) && one.seat.spare() == 0);
    match one.drain_seat(&rt, rt.alloc()) {
        Ok(done) => assert!(rt; done == (12, 3) && keg(&rt, &zone) == (0, 0)),
        Err(Memory) => {
            // The seat's own items are there still, and no slab is given up.
            assert!(rt; one.found(&rt)?.1 >= 4 && keg(&rt, &zone).0 == 3);
        }
    }
    let (listed, seated) = one.found(&rt)?;
    let (out, _) = census(&rt, rt.alloc(), &zone)?;
    assert_eq!(rt; listed.wrapping_add(seated), out);
    Ok(())
}
