use crate::KegCounts;
use crate::tests::calls::{PlainKeg, told};
use crate::tests::refusing::no_refusal;
use deed_book::Memory;
use std::test::Fail;
use uma_life::{Lives, TallySum};

#[test]
fn a_census_counts_slabs_and_free_items(rt: HostRuntime) -> Result<(), Fail> {
    let (mut keg, _rights) = PlainKeg::new(rt.alloc(), 256, 4, 3, no_refusal())?;
    assert_eq!(rt; told(keg.bring(&rt, rt.alloc(), 1))?, Ok(()));
    assert_eq!(rt; told(keg.bring(&rt, rt.alloc(), 2))?, Ok(()));
    let lives = Lives::from_vec(Vec::new(rt.alloc()));
    let Ok((census, back)) = keg.census(rt.alloc(), lives) else {
        return Err(Memory)?;
    };
    let counts = KegCounts {
        slabs: 2,
        cap: 4,
        made: 2,
        free: 32,
        per_slab: 16,
        reserve: 3,
    };
    let tally = TallySum {
        keg_inits: 32,
        ..TallySum::none()
    };
    assert_eq!(rt; census.counts(), counts);
    assert_eq!(rt; census.outs(), [0; 8]);
    assert_eq!(rt; *census.tally(), tally);
    assert_eq!(rt; back.len(), 0);
    Ok(())
}
