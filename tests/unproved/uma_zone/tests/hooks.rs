ghost use Rattle.std.specs.Prelude.{◌≡◌, ◌==◌, cond, Some, None};

use std::alloc::Global;
use std::sync::atomic::{AtomicU64, Ordering};
use std::sync::{Arc, Wait};
use uma_item::{Item, ItemHooks, TrailHooks};
use uma_life::Memory;

/// What an item shows to readers that hold no lock: the argument of the request that it was last built for.
pub(super) type Stamp = Arc<AtomicU64>;

pub(super) type Stamped = Item<Stamp>;

/// Hooks whose ctor stamps the item with its argument, and refuses 7 with 7. Nothing else is refused.
#[derive(Drop)]
pub(super) struct Stamps;

impl ItemHooks<Stamp> for Stamps {
    ghost refuses_ctor = { λ hooks stamp zone arg. cond (arg == 7) (Some 7) None };

    fn make<R: Wait>(&self, _rt: &R, alloc: Global, _no: u32) -> Result<Stamp, Memory> {
        Arc::new(alloc, AtomicU64::new(0)).map_err(|_| Memory)
    }

    fn init(&self, _zone: u8, _stamp: &mut Stamp) -> Result<(), u8> {
        Ok(())
    }

    fn ctor(&self, _zone: u8, stamp: &mut Stamp, arg: u64) -> Result<(), u8> {
        if arg == 7 {
            return Err(7);
        }
        stamp.store(arg, Ordering::SeqCst);
        Ok(())
    }

    fn dtor(&self, _zone: u8, _stamp: &mut Stamp) {}

    fn fini(&self, _zone: u8, _stamp: &mut Stamp) {}

    fn bury<R: Wait>(&self, _rt: &R, _stamp: Stamp) {}
}

pub(super) type TestHooks = TrailHooks<Stamps>;

/// The hooks of a zone. Its items count their stays in secondary zones.
pub(super) fn hooks() -> TestHooks {
    TrailHooks::with_stays(Stamps)
}
