ghost use Rattle.std.specs.Prelude.{◌≡◌, [], IfOk};

use crate::{Import, ImportRefused};
use std::alloc::{AllocError, Global};

/// An importer of the numbers from 1,000 on: the lowest that is free, one of so many.
#[derive(Drop)]
pub(crate) struct Ports {
    free: Vec<u64>,
    outside: Vec<u64>,
}

impl Ports {
    pub(crate) fn new(alloc: Global, count: usize) -> Result<Ports, AllocError>
        ensures { IfOk result (λ ports. ports.outside.items ≡ []) }
    {
        let mut free = Vec::with_capacity(alloc, count)?;
        for passed in 0..count {
            free.push(1_000 + (count - 1 - passed) as u64)?;
        }
        let outside = Vec::with_capacity(alloc, count)?;
        Ok(Ports { free, outside })
    }
}

impl Import for Ports {
    ghost outside = { λ ports. ports.outside.items };

    ghost lacks = { λ ports size greatest. (size ≡ 1) × (greatest ≡ 0) × (ports.free.items ≡ []) };

    fn take_one(&mut self, _alloc: Global) -> Result<u64, ImportRefused> {
        let Some(base) = self.free.pop() else {
            return Err(ImportRefused::NoFit {
                size: 1,
                greatest: 0,
            });
        };
        let Ok(()) = self.outside.push(base) else {
            return Err(ImportRefused::Memory);
        };
        Ok(base)
    }

    fn give_one(&mut self, base: u64) {
        let Some(at) = self.outside.iter().position(|it| *it == base) else {
            return;
        };
        self.outside.remove(at);
        let Ok(()) = self.free.push(base) else {
            return;
        };
    }
}
