use super::setting::{PLAIN, one_pass, zone};
use super::worker::new_worker;
use std::test::Fail;
use uma_keg::KegCounts;

/// Four slabs of four items may be in, and none is or ever was.
const NONE_MADE: KegCounts = KegCounts {
    slabs: 0,
    cap: 4,
    made: 0,
    free: 0,
    per_slab: 4,
    reserve: 0,
};

#[test]
fn a_slab_that_comes_in_again_is_made_once_more(rt: HostRuntime) -> Result<(), Fail> {
    let (clock, pass) = one_pass(rt.alloc(), 8)?;
    let zone = zone(rt.alloc(), &clock, 1024, PLAIN)?;
    let mut one = new_worker(&rt, rt.alloc(), &zone, &clock, pass)?;
    assert_eq!(rt; zone.counts(&rt), NONE_MADE);
    assert_eq!(rt; zone.prealloc(&rt, rt.alloc(), 8, 0)?, 2);
    let two = KegCounts {
        slabs: 2,
        made: 2,
        free: 8,
        ..NONE_MADE
    };
    assert_eq!(rt; zone.counts(&rt), two);
    assert_eq!(rt; zone.free_slabs(&rt), 2);
    let gone = KegCounts {
        made: 2,
        ..NONE_MADE
    };
    assert_eq!(rt; zone.counts(&rt), gone);
    assert_eq!(rt; zone.prealloc(&rt, rt.alloc(), 4, 0)?, 1);
    let again = KegCounts {
        slabs: 1,
        made: 3,
        free: 4,
        ..NONE_MADE
    };
    assert_eq!(rt; zone.counts(&rt), again);
    // One fetch takes all four items, so the fifth request brings in one more slab.
    assert_eq!(rt; one.request_many(&rt, rt.alloc(), 4)?, 0);
    assert_eq!(rt; zone.counts(&rt), KegCounts { free: 0, ..again });
    assert_eq!(rt; zone.free_slabs(&rt), 0);
    assert_eq!(rt; one.request_many(&rt, rt.alloc(), 1)?, 0);
    let used = KegCounts {
        slabs: 2,
        made: 4,
        free: 0,
        ..NONE_MADE
    };
    assert_eq!(rt; zone.counts(&rt), used);
    Ok(())
}
