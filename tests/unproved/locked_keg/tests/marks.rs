use crate::LockedKeg;
use std::alloc::Global;
use std::sync::Wait;
use uma_item::{Item, ItemHooks, TrailHooks};
use uma_life::Memory;

/// A keg of items of one number each, behind its lock.
pub(super) type MarksKeg = LockedKeg<Item<u32>, TrailHooks<Marks>>;

/// Hooks that refuse nothing and leave the number.
#[derive(Drop)]
pub struct Marks;

impl ItemHooks<u32> for Marks {
    fn make<R: Wait>(&self, _rt: &R, _alloc: Global, no: u32) -> Result<u32, Memory> {
        Ok(no)
    }

    fn init(&self, _zone: u8, _item: &mut u32) -> Result<(), u8> {
        Ok(())
    }

    fn ctor(&self, _zone: u8, _item: &mut u32, _arg: u64) -> Result<(), u8> {
        Ok(())
    }

    fn dtor(&self, _zone: u8, _item: &mut u32) {}

    fn fini(&self, _zone: u8, _item: &mut u32) {}

    fn bury<R: Wait>(&self, _rt: &R, _item: u32) {}
}
