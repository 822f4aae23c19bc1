//! The steps of an arena's take and give on std's ordered maps, in plain Rust, to be timed beside it. Nothing of it is proved.
use std::collections::{BTreeMap, BTreeSet};
use std::hint::black_box;
use std::time::Instant;

/// As in the arena's program.
const ROUNDS: u64 = 400;
const TRIES: u32 = 1_000;

#[derive(Clone, Copy, PartialEq)]
struct Span {
    base: u64,
    size: u64,
}

struct Tag {
    size: u64,
    taken: bool,
    span: Span,
}

struct Maps {
    by_base: BTreeMap<u64, Tag>,
    by_size: BTreeSet<(u64, u64)>,
    free_total: u128,
}

impl Maps {
    fn new(size: u64) -> Self {
        let tag = Tag { size, taken: false, span: Span { base: 0, size } };
        Maps { by_base: BTreeMap::from([(0, tag)]), by_size: BTreeSet::from([(size, 0)]), free_total: u128::from(size) }
    }

    /// The front of the smallest free range that holds the size, the lowest of equal ones.
    fn take(&mut self, size: u64) -> Option<u64> {
        let fit = *self.by_size.range((size, 0)..).next()?;
        let (found, base) = fit;
        self.by_size.remove(&fit);
        let tag = self.by_base.get_mut(&base)?;
        tag.taken = true;
        tag.size = size;
        let span = tag.span;
        if size < found {
            let rest = Tag { size: found - size, taken: false, span };
            self.by_base.insert(base + size, rest);
            self.by_size.insert((found - size, base + size));
        }
        self.free_total -= u128::from(size);
        Some(base)
    }

    /// The size of the taken range at this base, which is free then, and one with its free neighbours of the same span.
    fn give(&mut self, base: u64) -> Option<u64> {
        let tag = self.by_base.get(&base)?;
        if !tag.taken {
            return None;
        }
        let (given, span) = (tag.size, tag.span);
        let (mut first, mut size) = (base, given);
        if let Some(next) = self.by_base.get(&(base + size)) {
            if !next.taken && next.span == span {
                let next = next.size;
                self.by_base.remove(&(base + given));
                self.by_size.remove(&(next, base + given));
                size += next;
            }
        }
        if let Some((at, last)) = self.by_base.range(..base).next_back() {
            if !last.taken && last.span == span && at + last.size == base {
                let (at, last) = (*at, last.size);
                self.by_base.remove(&base);
                self.by_size.remove(&(last, at));
                first = at;
                size += last;
            }
        }
        self.by_base.insert(first, Tag { size, taken: false, span });
        self.by_size.insert((size, first));
        self.free_total += u128::from(given);
        Some(given)
    }
}

struct Timed {
    maps: Maps,
    free: u64,
    sizes: u64,
    most: u64,
    asked: u64,
    least: u128,
}

impl Timed {
    /// So many free ranges of so many sizes, or of as many as there are ranges, each between taken ones.
    fn new((free, most): (u64, u64)) -> Option<Self> {
        let sizes = free.min(most);
        let mut maps = Maps::new((sizes + 2) * free);
        let mut bases = Vec::new();
        for number in 0..free {
            bases.push(maps.take((number * 7_919 % sizes + 1) * 2)?);
            maps.take(1)?;
        }
        for base in bases {
            maps.give(base)?;
        }
        Some(Timed { maps, free, sizes, most, asked: 0, least: u128::MAX })
    }

    fn next_size(&mut self) -> u64 {
        self.asked = self.asked.wrapping_mul(6_364_136_223_846_793_005).wrapping_add(1_442_695_040_888_963_407);
        (self.asked >> 24) % (2 * self.sizes) + 1
    }

    fn round(&mut self) -> Option<()> {
        let size = self.next_size();
        let base = self.maps.take(size)?;
        self.maps.give(black_box(base))?;
        Some(())
    }

    fn rounds(&mut self) -> Option<()> {
        (0..ROUNDS).try_for_each(|_| self.round())
    }
}

fn time_all() -> Option<Vec<Timed>> {
    let each = [10, 1_000, 100_000].into_iter().flat_map(|free| [1, 100, 100_000].map(|most| (free, most)));
    let mut all = each.map(Timed::new).collect::<Option<Vec<_>>>()?;
    for _ in 0..TRIES {
        for timed in &mut all {
            timed.rounds()?;
            let begin = Instant::now();
            timed.rounds()?;
            timed.least = timed.least.min(begin.elapsed().as_nanos());
        }
    }
    Some(all)
}

fn main() {
    let all = time_all().expect("a range is gone");
    for timed in &all {
        black_box(timed.maps.free_total);
        let each = timed.least * 1000 / u128::from(ROUNDS);
        println!("maps    {} free of up to {} sizes: {each} picoseconds a take and a give", timed.free, timed.most);
    }
}
