use crate::{NotTaken, TakeRefused};
use std::alloc::{AllocError, Global};

#[derive(Clone, Copy)]
struct Tag {
    base: u64,
    size: u64,
    taken: bool,
    span: u64,
}

/// An arena as a plain list of its tags in order of base, over which each call goes from the front.
#[derive(Drop)]
pub struct Plain {
    quantum: u64,
    tags: Vec<Tag>,
}

impl Plain {
    pub fn new(alloc: Global, quantum: u64) -> Plain {
        Plain {
            quantum,
            tags: Vec::new(alloc),
        }
    }

    /// Adds a span behind all others.
    pub fn add(&mut self, base: u64, size: u64) -> Result<(), AllocError> {
        self.tags.push(Tag {
            base,
            size,
            taken: false,
            span: base,
        })?;
        Ok(())
    }

    pub fn take(&mut self, size: u64) -> Result<Result<u64, TakeRefused>, AllocError> {
        if size == 0 {
            return Ok(Err(TakeRefused::Size { size }));
        }
        let size = (size + self.quantum - 1) / self.quantum * self.quantum;
        let mut best: Option<usize> = None;
        let mut greatest = 0;
        for (i, tag) in self.tags.iter().enumerate() {
            if tag.taken {
                continue;
            }
            greatest = greatest.max(tag.size);
            let better = match best {
                Some(b) => tag.size < self.tags[b].size,
                None => true,
            };
            if size <= tag.size && better {
                best = Some(i);
            }
        }
        let Some(i) = best else {
            return Ok(Err(TakeRefused::NoFit { size, greatest }));
        };
        let tag = self.tags[i];
        if size < tag.size {
            let rest = Tag {
                base: tag.base + size,
                size: tag.size - size,
                taken: false,
                span: tag.span,
            };
            self.tags.insert(i + 1, rest)?;
        }
        self.tags[i] = Tag {
            base: tag.base,
            size,
            taken: true,
            span: tag.span,
        };
        Ok(Ok(tag.base))
    }

    pub fn give(&mut self, base: u64) -> Result<u64, NotTaken> {
        let Some(i) = self.tags.iter().position(|t| t.taken && t.base == base) else {
            return Err(NotTaken { base });
        };
        let size = self.tags[i].size;
        self.tags[i].taken = false;
        if i + 1 < self.tags.len() && self.are_one(i) {
            self.tags[i].size += self.tags[i + 1].size;
            let _ = self.tags.remove(i + 1);
        }
        if i > 0 && self.are_one(i - 1) {
            self.tags[i - 1].size += self.tags[i].size;
            let _ = self.tags.remove(i);
        }
        Ok(size)
    }

    fn are_one(&self, i: usize) -> bool {
        let (a, b) = (self.tags[i], self.tags[i + 1]);
        !a.taken && !b.taken && a.span == b.span
    }

    pub fn is_taken(&self, base: u64) -> bool {
        self.tags.iter().any(|t| t.taken && t.base == base)
    }

    pub fn free_total(&self) -> u128 {
        let mut sum = 0u128;
        for tag in &self.tags {
            if !tag.taken {
                sum += u128::from(tag.size);
            }
        }
        sum
    }

    /// The base of some range.
    pub fn some_base(&self, choice: u64) -> u64 {
        let len = self.tags.len() as u64;
        if len == 0 { 0 } else { self.tags[(choice % len) as usize].base }
    }

    /// The bases of the taken ranges.
    pub fn taken(&self, alloc: Global) -> Result<Vec<u64>, AllocError> {
        let mut bases = Vec::new(alloc);
        for tag in &self.tags {
            if tag.taken {
                bases.push(tag.base)?;
            }
        }
        Ok(bases)
    }
}
