use crate::{AddRefused, Arena, ArenaRefused, NotTaken, TakeRefused};
use std::test::Fail;

#[test]
fn the_worked_rows(rt: HostRuntime) -> Result<(), Fail> {
    let alloc = rt.alloc();
    let mut arena = Arena::new(alloc, 16)?;
    arena.add(alloc, 4096, 256)?;
    assert_eq!(rt; arena.take(alloc, 20), Ok(4096));
    assert_eq!(rt; arena.take(alloc, 100), Ok(4128));
    assert_eq!(rt; arena.take(alloc, 16), Ok(4240));
    assert_eq!(rt; arena.give(4096), Ok(32));
    assert_eq!(rt; arena.take(alloc, 16), Ok(4096));
    assert_eq!(rt;
        arena.take(alloc, 112),
        Err(TakeRefused::NoFit {
            size: 112,
            greatest: 96
        })
    );
    assert_eq!(rt; arena.give(4240), Ok(16));
    assert_eq!(rt; arena.take(alloc, 112), Ok(4240));
    assert_eq!(rt; arena.give(5000), Err(NotTaken { base: 5000 }));
    assert_eq!(rt;
        arena.add(alloc, 4096, 16),
        Err(AddRefused::Overlap {
            base: 4096,
            size: 256
        })
    );
    assert_eq!(rt; arena.free_total(), 16);
    assert!(rt; arena.is_taken(4240) && !arena.is_taken(4112) && !arena.is_taken(4097));
    Ok(())
}

#[test]
fn what_is_refused(rt: HostRuntime) -> Result<(), Fail> {
    let alloc = rt.alloc();
    for quantum in [0, 3, 24, 1 << 21, u64::MAX] {
        assert_eq!(rt;
            Arena::new(alloc, quantum).err(),
            Some(ArenaRefused::Quantum { quantum })
        );
    }
    let mut arena = Arena::new(alloc, 16)?;
    assert_eq!(rt;
        arena.take(alloc, 1),
        Err(TakeRefused::NoFit {
            size: 16,
            greatest: 0
        })
    );
    for (base, size) in [
        (0, 0),
        (8, 16),
        (16, 8),
        (1 << 63, 16),
        (16, 1 << 63),
        (u64::MAX - 15, 32),
    ] {
        assert_eq!(rt;
            arena.add(alloc, base, size),
            Err(AddRefused::Shape { base, size })
        );
    }
    arena.add(alloc, 64, 64)?;
    arena.add(alloc, 128, 64)?;
    arena.add(alloc, (1 << 63) - 16, 16)?;
    for (base, size) in [(48, 32), (64, 16), (80, 64), (112, 32), (32, 256), (64, 64)] {
        assert_eq!(rt;
            arena.add(alloc, base, size),
            Err(AddRefused::Overlap { base: 64, size: 64 })
        );
    }
    assert_eq!(rt;
        arena.add(alloc, 176, 32),
        Err(AddRefused::Overlap {
            base: 128,
            size: 64
        })
    );
    arena.add(alloc, 48, 16)?;
    arena.add(alloc, 192, 16)?;
    for size in [0, (1 << 62) + 1, u64::MAX] {
        assert_eq!(rt; arena.take(alloc, size), Err(TakeRefused::Size { size }));
    }
    assert_eq!(rt;
        arena.take(alloc, 65),
        Err(TakeRefused::NoFit {
            size: 80,
            greatest: 64
        })
    );
    assert_eq!(rt;
        arena.take(alloc, 1 << 62),
        Err(TakeRefused::NoFit {
            size: 1 << 62,
            greatest: 64
        })
    );
    Ok(())
}

#[test]
fn spans_that_touch_stay_apart(rt: HostRuntime) -> Result<(), Fail> {
    let alloc = rt.alloc();
    let mut arena = Arena::new(alloc, 1)?;
    arena.add(alloc, 10, 10)?;
    arena.add(alloc, 20, 10)?;
    assert_eq!(rt; arena.take(alloc, 10), Ok(10));
    assert_eq!(rt; arena.take(alloc, 10), Ok(20));
    assert_eq!(rt; arena.give(20), Ok(10));
    assert_eq!(rt; arena.give(10), Ok(10));
    assert_eq!(rt;
        arena.take(alloc, 11),
        Err(TakeRefused::NoFit {
            size: 11,
            greatest: 10
        })
    );
    assert_eq!(rt; arena.take(alloc, 5), Ok(10));
    assert_eq!(rt; arena.take(alloc, 5), Ok(15));
    assert_eq!(rt; arena.give(10), Ok(5));
    assert_eq!(rt; arena.give(15), Ok(5));
    assert_eq!(rt; arena.take(alloc, 10), Ok(10));
    Ok(())
}
