use std::alloc::{AllocError, Global};
use std::mem::{replace, swap};

/// A full bucket on the shelf.
#[derive(Drop)]
pub(super) struct Full {
    pub domain: u32,
    pub numbers: Vec<u32>,
}

/// What a seat of domain 0 holds, of two domains and with buckets of 4: each list by the numbers of its items.
#[derive(Drop)]
pub(super) struct Lists {
    top: Vec<u32>,
    own: Vec<u32>,
    other: Vec<u32>,
    shelf: Vec<Full>,
    spare: u32,
}

impl Lists {
    pub fn new(alloc: Global) -> Lists {
        Lists {
            top: Vec::new(alloc),
            own: Vec::new(alloc),
            other: Vec::new(alloc),
            shelf: Vec::new(alloc),
            spare: 2,
        }
    }

    pub fn spare(&self) -> u32 {
        self.spare
    }

    pub fn alloc(&mut self) -> Option<u32> {
        if self.top.is_empty() {
            swap(&mut self.top, &mut self.own);
        }
        self.top.pop()
    }

    pub fn free_own(&mut self, alloc: Global, no: u32) -> Result<(), AllocError> {
        if self.spare > 0 {
            self.own.push(no)?;
            if self.own.len() == 4 {
                let numbers = replace(&mut self.own, Vec::new(alloc));
                self.shelf.push(Full { domain: 0, numbers })?;
                self.spare -= 1;
            }
        }
        Ok(())
    }

    pub fn free_other(&mut self, alloc: Global, no: u32) -> Result<(), AllocError> {
        if self.spare > 0 {
            self.other.push(no)?;
            if self.other.len() == 4 {
                let numbers = replace(&mut self.other, Vec::new(alloc));
                self.shelf.push(Full { domain: 1, numbers })?;
                self.spare -= 1;
            }
        }
        Ok(())
    }

    pub fn take_cross(&mut self) -> Option<u32> {
        self.other.pop()
    }

    pub fn take_oldest(&mut self) -> Option<Full> {
        if self.shelf.is_empty() {
            None
        } else {
            Some(self.shelf.remove(0))
        }
    }

    pub fn renew_oldest(&mut self) -> Option<Full> {
        let full = self.take_oldest()?;
        self.spare = self.spare.wrapping_add(1);
        Some(full)
    }

    pub fn refill(&mut self) -> Result<Option<u32>, AllocError> {
        let taken = self.alloc();
        if let Some(no) = taken {
            self.top.push(no)?;
        } else if let Some(full) = self.renew_oldest() {
            self.top = full.numbers;
        }
        Ok(taken)
    }
}
