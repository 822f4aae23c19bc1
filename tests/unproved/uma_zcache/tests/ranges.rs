use super::told::alloc_told;
use crate::{ArenaImport, SizeRefused, ZAllocRefused, ZCache};
use deed_book::Memory;
use std::alloc::Global;
use std::test::Fail;
use vmem_arena::Arena;

/// A span 4,096 of 64 with the quantum 16, in ranges of 32.
fn two_ranges(alloc: Global, numbers: u32) -> Result<ZCache<ArenaImport>, Fail> {
    let mut arena = Arena::new(alloc, 16)?;
    arena.add(alloc, 4_096, 64)?;
    let Ok(import) = ArenaImport::new(arena, 32) else {
        unreachable!()
    };
    let cache = ZCache::new(alloc, import, numbers)?;
    Ok(cache)
}

#[test]
fn a_base_is_found_again_once_the_other_seat_was_drained(rt: HostRuntime) -> Result<(), Fail> {
    let alloc = rt.alloc();
    let cache = two_ranges(alloc, 8)?;
    let mut first = cache.seat(&rt, alloc, 4)?;
    let mut second = cache.seat(&rt, alloc, 4)?;
    let no_fit = ZAllocRefused::NoFit {
        size: 32,
        greatest: 0,
    };
    let held = cache.alloc(&rt, alloc, &mut first)?;
    if cache.out(&rt) == 1 {
        // The round ended at its second range, since memory is wanting: the first one was handed out.
        assert!(rt; held.base() == 4_096);
        return Err(Memory)?;
    }
    assert!(rt; held.base() == 4_128);
    assert!(rt; alloc_told(cache.alloc(&rt, alloc, &mut second))? == Some(no_fit));
    assert!(rt; cache.out(&rt) == 2);
    cache.free(&rt, &mut first, held);
    assert!(rt; alloc_told(cache.alloc(&rt, alloc, &mut second))? == Some(no_fit));
    assert!(rt; cache.drain(&rt, &mut first) == 2);
    assert!(rt; cache.out(&rt) == 0);
    assert!(rt; alloc_told(cache.alloc(&rt, alloc, &mut second))?.is_none());
    Ok(())
}

#[test]
fn with_one_number_the_other_seat_finds_it_out(rt: HostRuntime) -> Result<(), Fail> {
    let alloc = rt.alloc();
    let cache = two_ranges(alloc, 1)?;
    let mut first = cache.seat(&rt, alloc, 4)?;
    let mut second = cache.seat(&rt, alloc, 4)?;
    assert!(rt; cache.alloc(&rt, alloc, &mut first)?.base() == 4_096);
    let out = ZAllocRefused::Out { out: 1, numbers: 1 };
    assert!(rt; alloc_told(cache.alloc(&rt, alloc, &mut second))? == Some(out));
    Ok(())
}

#[test]
fn ranges_have_1_to_2_to_the_62(rt: HostRuntime) -> Result<(), Fail> {
    for size in [0, (1 << 62) + 1] {
        let arena = Arena::new(rt.alloc(), 1)?;
        assert!(rt; ArenaImport::new(arena, size).err() == Some(SizeRefused { size }));
    }
    for size in [1, 1 << 62] {
        let arena = Arena::new(rt.alloc(), 1)?;
        assert!(rt; ArenaImport::new(arena, size).is_ok());
    }
    Ok(())
}
