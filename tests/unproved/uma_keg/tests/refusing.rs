ghost use Rattle.std.specs.Prelude.{◌≡◌, ◌==◌, cond, None, Some};
ghost use Rattle.uma_life.specs.Hook.{IsCode};

use crate::tests::body::Marked;
use std::alloc::Global;
use std::sync::Wait;
use uma_item::{ItemHooks, TrailHooks};
use uma_life::Memory;

/// Refuses the item of one number in each zone, with a code, which is also the mark that `fini` leaves.
#[derive(Drop)]
pub struct Refusing {
    pub number: u32,
    pub code: u8,
    pub ghost is_code: { IsCode code },
}

impl ItemHooks<Marked> for Refusing {
    ghost makes = { λ hooks number made. (made.no ≡ number) × (made.mark ≡ 0) };

    ghost refuses_init = { λ hooks before zone. cond (before.no == hooks.number) (Some hooks.code) None };

    ghost leaves_fini = { λ hooks before zone left. left.mark ≡ hooks.code };

    fn make<R: Wait>(&self, _rt: &R, _alloc: Global, no: u32) -> Result<Marked, Memory> {
        Ok(Marked { no, mark: 0 })
    }

    fn init(&self, _zone: u8, marked: &mut Marked) -> Result<(), u8> {
        if marked.no == self.number {
            return Err(self.code);
        }
        Ok(())
    }

    fn ctor(&self, _zone: u8, _marked: &mut Marked, _arg: u64) -> Result<(), u8> {
        Ok(())
    }

    fn dtor(&self, _zone: u8, _marked: &mut Marked) {}

    fn fini(&self, _zone: u8, marked: &mut Marked) {
        marked.mark = self.code;
    }

    fn bury<R: Wait>(&self, _rt: &R, _marked: Marked) {}
}

/// The hooks of a keg or of one of its zones.
pub type RefusingHooks = TrailHooks<Refusing>;

/// Hooks that refuse the item of this number with this code.
pub fn hooks_refusing(number: u32, code: u8) -> RefusingHooks
    requires { IsCode code }
{
    TrailHooks::with_stays(Refusing { number, code })
}

/// Hooks that refuse no item of these kegs, with this mark.
pub fn marking(mark: u8) -> RefusingHooks
    requires { IsCode mark }
{
    hooks_refusing(9999, mark)
}

/// Hooks that refuse no item of these kegs.
pub fn no_refusal() -> RefusingHooks {
    marking(1)
}
