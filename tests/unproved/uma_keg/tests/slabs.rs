use crate::tests::calls::{PlainKeg, told};
use crate::tests::refusing::{hooks_refusing, no_refusal};
use crate::{FetchRefused, KegCounts};
use std::test::Fail;
use zone_stats::Refusal;

#[test]
fn a_keg_brings_in_slabs_up_to_its_cap(rt: HostRuntime) -> Result<(), Fail> {
    let (mut keg, _rights) = PlainKeg::new(rt.alloc(), 256, 2, 3, no_refusal())?;
    assert_eq!(rt; told(keg.bring(&rt, rt.alloc(), 1))?, Ok(()));
    assert_eq!(rt; told(keg.bring(&rt, rt.alloc(), 0))?, Ok(()));
    let full = FetchRefused::Refused {
        refusal: Refusal::Full { slabs: 2, made: 2 },
    };
    assert_eq!(rt; told(keg.bring(&rt, rt.alloc(), 0))?, Err(full));
    let counts = KegCounts {
        slabs: 2,
        cap: 2,
        made: 2,
        free: 32,
        per_slab: 16,
        reserve: 3,
    };
    assert_eq!(rt; keg.counts(), counts);
    assert_eq!(rt; (keg.tally().keg_inits, keg.tally().keg_finis), (32, 0));
    Ok(())
}

/// The items made before the one that is refused are ended, and are counted among the buried.
#[test]
fn a_refused_slab_ends_the_items_before(rt: HostRuntime) -> Result<(), Fail> {
    let hooks = hooks_refusing(2, 9);
    let (mut keg, _rights) = PlainKeg::new(rt.alloc(), 256, 2, 0, hooks)?;
    let refused = FetchRefused::Refused {
        refusal: Refusal::Init { code: 9 },
    };
    assert_eq!(rt; told(keg.bring(&rt, rt.alloc(), 0))?, Err(refused));
    assert_eq!(rt;
        (keg.counts().slabs, keg.counts().made, keg.counts().free),
        (0, 0, 0)
    );
    let sums = keg.wide_tally();
    assert_eq!(rt; (sums.keg_inits, sums.keg_finis), (2, 2));
    Ok(())
}
