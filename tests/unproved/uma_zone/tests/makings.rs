use super::setting::{PLAIN, one_pass, second, zone};
use crate::{SecondSet, ZoneRefused, ZoneSet};
use deed_book::Memory;
use std::test::Fail;

/// Why no zone was made, if none was; where memory is wanting the test stops.
fn told<T: Drop>(made: Result<T, ZoneRefused>) -> Result<Option<ZoneRefused>, Memory> {
    match made {
        Err(ZoneRefused::Memory) => Err(Memory),
        Err(refused) => Ok(Some(refused)),
        Ok(_) => Ok(None),
    }
}

#[test]
fn a_making_names_the_first_number_out_of_range(rt: HostRuntime) -> Result<(), Fail> {
    let (clock, _) = one_pass(rt.alloc(), 8)?;
    let refusals = [
        (7, PLAIN, ZoneRefused::Size { size: 7 }),
        (
            4097,
            ZoneSet { slabs: 0, ..PLAIN },
            ZoneRefused::Size { size: 4097 },
        ),
        (
            256,
            ZoneSet { slabs: 0, ..PLAIN },
            ZoneRefused::Slabs { slabs: 0 },
        ),
        (
            256,
            ZoneSet {
                slabs: 1025,
                bucket: 3,
                ..PLAIN
            },
            ZoneRefused::Slabs { slabs: 1025 },
        ),
        (
            256,
            ZoneSet { bucket: 3, ..PLAIN },
            ZoneRefused::Bucket { bucket: 3 },
        ),
        (
            256,
            ZoneSet {
                bucket: 65,
                domains: 5,
                ..PLAIN
            },
            ZoneRefused::Bucket { bucket: 65 },
        ),
        (
            256,
            ZoneSet {
                domains: 5,
                ..PLAIN
            },
            ZoneRefused::Domains { domains: 5 },
        ),
        (
            256,
            ZoneSet {
                domains: 0,
                ..PLAIN
            },
            ZoneRefused::Domains { domains: 0 },
        ),
    ];
    for (size, set, refused) in refusals {
        let why = told(zone(rt.alloc(), &clock, size, set))?;
        assert_eq!(rt; why, Some(refused));
    }
    Ok(())
}

#[test]
fn a_keg_has_eight_zones(rt: HostRuntime) -> Result<(), Fail> {
    let (clock, _) = one_pass(rt.alloc(), 8)?;
    let mut base = zone(rt.alloc(), &clock, 256, PLAIN)?;
    let set = SecondSet {
        bucket: 4,
        limit: 3,
        smr: false,
    };
    let narrow = SecondSet { bucket: 3, ..set };
    let refused = told(second(&rt, rt.alloc(), &mut base, narrow))?;
    assert_eq!(rt; refused, Some(ZoneRefused::Bucket { bucket: 3 }));
    let mut seconds = Vec::new(rt.alloc());
    for _ in 0..7 {
        seconds.push(second(&rt, rt.alloc(), &mut base, set)?)?;
    }
    let refused = told(second(&rt, rt.alloc(), &mut base, set))?;
    assert_eq!(rt; refused, Some(ZoneRefused::Zones { zones: 8 }));
    Ok(())
}
