ghost use Rattle.std.specs.Prelude.{◌≡◌, ◌+◌};
ghost use Rattle.uma_life.specs.Cached.{cached_table, cached_zone};
ghost use Rattle.uma_keg.specs.Keg.{table_in, out_in};

use crate::tests::body::Plain;
use crate::tests::calls::{PlainKeg, adds_by_the_last};
use crate::tests::refusing::no_refusal;
use crate::{KegCounts, KegRefused};
use std::test::Fail;
use uma_life::Cached;

#[test]
fn a_keg_refuses_what_is_out_of_range(rt: HostRuntime) -> Result<(), Fail> {
    let rows = [
        (7, 0, KegRefused::Size { size: 7 }),
        (4097, 1, KegRefused::Size { size: 4097 }),
        (8, 0, KegRefused::Slabs { slabs: 0 }),
        (4096, 1025, KegRefused::Slabs { slabs: 1025 }),
    ];
    for (size, slabs, refused) in rows {
        let keg = PlainKeg::new(rt.alloc(), size, slabs, 0, no_refusal());
        assert_eq!(rt; keg.err(), Some(refused));
    }
    Ok(())
}

#[test]
fn zones_are_added_by_the_rights_of_the_keg(rt: HostRuntime) -> Result<(), Fail> {
    let (mut keg, mut rights) = PlainKeg::new(rt.alloc(), 256, 4, 3, no_refusal())?;
    let numbers = [7, 6, 5, 4, 3, 2, 1, 0];
    assert!(rt; rights.iter().map(|right| right.no()).eq(numbers));
    assert!(rt; !keg.has_zone(0));
    assert_eq!(rt; adds_by_the_last(&mut keg, &mut rights, 5), Some(0));
    assert_eq!(rt; adds_by_the_last(&mut keg, &mut rights, 0), Some(1));
    for (zone, exists, limit) in [(0, true, 5), (1, true, 0), (2, false, 0), (8, false, 0)] {
        assert_eq!(rt; keg.has_zone(zone), exists);
        assert_eq!(rt; (keg.limit(zone), keg.out(zone)), (limit, 0));
    }
    assert_eq!(rt; keg.size(), 256);
    let counts = KegCounts {
        slabs: 0,
        cap: 4,
        made: 0,
        free: 0,
        per_slab: 16,
        reserve: 3,
    };
    assert_eq!(rt; keg.counts(), counts);
    Ok(())
}

/// Gives two items of one zone back.
pub fn gives_two(keg: &mut PlainKeg, one: Cached<Plain>, other: Cached<Plain>)
    requires one { cached_table one ≡ table_in keg.old }
    requires other { cached_table other ≡ table_in keg.old }
    requires zone { cached_zone other ≡ cached_zone one }
    ensures { out_in keg.new (cached_zone one) + 2 ≡ out_in keg.old (cached_zone one) }
{
    keg.give(&no_refusal(), one);
    keg.give(&no_refusal(), other);
}
