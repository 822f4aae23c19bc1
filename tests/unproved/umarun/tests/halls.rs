//! What a run leaves behind.
use super::*;
use uma_life::{Body, ZoneTally};

/// Two workers take items of the two zones of a keg and of another keg, and one item goes to the other worker.
const TWO_KEGS: &str =
    "uma 1\nworkers 2\ndomains 1\nzone box 1024 2 4 0 0 plain\nsecond top box 4 0 plain\nzone bag 512 4 4 0 0 plain\nalloc 0 box 0\nalloc 0 top 7\nalloc 0 top 8\nfree 0 8\nalloc 1 bag 65535\nround\ngive 0 7 1 0\nend\n";

/// Each census is how its keg stands now, which all its zones say.
#[test]
fn a_run_leaves_a_census_of_each_keg(rt: HostRuntime) -> Result<(), Fail> {
    let Hall {
        zones,
        censuses,
        ..
    } = hall_of(&rt, TWO_KEGS)?;
    let (zones, censuses) = (zones.as_slice(), censuses.as_slice());
    assert_eq!(rt; zones.len(), 3);
    assert_eq!(rt; censuses.len(), 2);
    assert_eq!(rt; zones[0].counts(&rt), censuses[0].counts());
    assert_eq!(rt; zones[1].counts(&rt), censuses[0].counts());
    assert_eq!(rt; zones[2].counts(&rt), censuses[1].counts());
    Ok(())
}

/// Items of three zones of one keg. The seat of the second zone is drained before the third one takes the same items.
const SECONDS: &str =
    "uma 1\nworkers 1\ndomains 1\nzone base 512 4 4 0 0 plain\nsecond a base 4 0 plain\nsecond b base 4 0 plain\nalloc 0 base 0\nalloc 0 a 1\nfree 0 1\ndrainseat 0 a\nalloc 0 b 2\nend\n";

/// The third zone's item passed init and fini of the second one before.
#[test]
fn an_item_of_a_drained_seat_goes_through_its_zones_in_order(rt: HostRuntime) -> Result<(), Fail> {
    let Hall { workers, .. } = hall_of(&rt, SECONDS)?;
    let mut workers = workers.into_vec();
    let mut worker = workers.pop().expect(&rt, "a worker");
    let held = worker.slots.take(2).expect(&rt, "an item");
    let tally = held.item.body().tally();
    let stayed = ZoneTally {
        inits: 1,
        ctors: 1,
        dtors: 1,
        finis: 1,
    };
    let stays = ZoneTally {
        inits: 1,
        ctors: 1,
        dtors: 0,
        finis: 0,
    };
    assert_eq!(rt; (held.zone, held.item.no(), tally.keg_inits), (2, 7, 1));
    assert_eq!(rt; tally.zones[1], stayed);
    assert_eq!(rt; tally.zones[2], stays);
    Ok(())
}
