ghost use Rattle.std.specs.Prelude.{◌≡◌, [], IfOk};
ghost use Rattle.deed_book.specs.Book.{book_table};
ghost use Rattle.smr_clock.specs.Belongs.{IsPassOf, clock_id, holder};
ghost use Rattle.smr_core.specs.declared.holder.Phase.{Phase};
ghost use Rattle.uma_bucket.specs.Home.{IsHome};
ghost use Rattle.uma_bucket.specs.Sealed.{IsSealedAt, sealed_bucket};
ghost use Rattle.uma_life.specs.Cached.{cached_ticket};
ghost use Rattle.uma_domain.specs.Domain.{domain_identity};
ghost use Rattle.uma_domain.specs.Identity.{home_of};
ghost use Rattle.uma_domain.specs.Listed.{IsPlainOf, IsLooseOf};

use super::body::{Plain, hooks};
use crate::Domain;
use deed_book::{Book, Memory};
use smr_clock::{Bare, Clock, ClockRefused, Pass};
use std::alloc::Global;
use std::sync::Wait;
use std::test::Fail;
use uma_bucket::{Bucket, Freed, Loose, Sealed};
use uma_life::{Cached, Stored};

/// A clock of two seats with a window of 16, and the passes of its seats.
pub(super) fn two_seats(
    alloc: Global,
) -> Result<(Clock<Bare>, Pass<Bare>, Pass<Bare>), ClockRefused>
    ensures here { IfOk result (λ made. IsPassOf made.0 made.1 × IsPassOf made.0 made.2) }
    ensures outside { IfOk result (λ made. ((holder made.1).phase ≡ Phase.Outside) × ((holder made.2).phase ≡ Phase.Outside)) }
{
    two_seats_within(alloc, 16)
}

/// The same with this window.
pub(super) fn two_seats_within(
    alloc: Global,
    window: u64,
) -> Result<(Clock<Bare>, Pass<Bare>, Pass<Bare>), ClockRefused>
    ensures here { IfOk result (λ made. IsPassOf made.0 made.1 × IsPassOf made.0 made.2) }
    ensures outside { IfOk result (λ made. ((holder made.1).phase ≡ Phase.Outside) × ((holder made.2).phase ≡ Phase.Outside)) }
{
    let (clock, mut passes) = Clock::<Bare>::new(alloc, 2, 1, window)?;
    let second = passes.pop();
    let first = passes.pop();
    let (Some(first), Some(second)) = (first, second) else {
        unreachable!()
    };
    Ok((clock, first, second))
}

/// A cached item of zone 0, in domain 0. Such items are of no origin.
fn cached<R: Wait>(rt: &R, alloc: Global, book: &mut Book, no: u32) -> Result<Cached<Plain>, Fail>
    requires no_origin { (book_table book.old).origin ≡ [] }
    ensures table { book_table book.new ≡ book_table book.old }
    ensures at_home { IfOk result (λ item. IsHome (home_of (book_table book.old) 0 1) (cached_ticket item)) }
{
    let hooks = hooks();
    let stored = Stored::bring(rt, alloc, &hooks, no)?;
    if !book.is_home(no) {
        return Err(Fail::new("out"));
    }
    let Ok(item) = stored.lend(&hooks, book.issue(no, 0), 0) else {
        return Err(Fail::new("refused"));
    };
    Ok(item)
}

/// A bucket of one cached item.
pub(super) fn plain<R: Wait>(
    rt: &R,
    alloc: Global,
    book: &mut Book,
    no: u32,
) -> Result<Bucket<Plain>, Fail>
    requires no_origin { (book_table book.old).origin ≡ [] }
    ensures table { book_table book.new ≡ book_table book.old }
    ensures at_home { IfOk result (IsPlainOf (home_of (book_table book.old) 0 1)) }
{
    let item = cached(rt, alloc, book, no)?;
    let mut bucket = Bucket::make(alloc, 4)?;
    bucket.push(item);
    Ok(bucket)
}

/// A loose bucket of one freed item.
fn loose<R: Wait>(rt: &R, alloc: Global, book: &mut Book, no: u32) -> Result<Loose<Plain>, Fail>
    requires no_origin { (book_table book.old).origin ≡ [] }
    ensures table { book_table book.new ≡ book_table book.old }
    ensures at_home { IfOk result (IsLooseOf (home_of (book_table book.old) 0 1)) }
{
    let Ok(live) = cached(rt, alloc, book, no)?.build(&hooks(), 0) else {
        return Err(Fail::new("refused"));
    };
    let mut bucket = Loose::make(alloc, 4)?;
    bucket.push(Freed::of(live));
    Ok(bucket)
}

/// A sealed bucket of one freed item.
fn sealed<R: Wait>(
    rt: &R,
    alloc: Global,
    book: &mut Book,
    no: u32,
    clock: &Clock<Bare>,
    pass: &mut Pass<Bare>,
) -> Result<Sealed<Plain, Bare>, Fail>
    requires here { IsPassOf clock.now pass.old }
    requires no_origin { (book_table book.old).origin ≡ [] }
    ensures here { IsPassOf clock.now pass.new }
    ensures table { book_table book.new ≡ book_table book.old }
    ensures at_home { IfOk result (λ sealed. IsLooseOf (home_of (book_table book.old) 0 1) (sealed_bucket sealed)) }
    ensures clock { IfOk result (IsSealedAt (clock_id clock.now)) }
{
    let Ok(sealed) = loose(rt, alloc, book, no)?.seal(clock, pass) else {
        return Err(Fail::new("no room"));
    };
    Ok(sealed)
}

/// Puts a plain bucket of one item, and settles.
pub(super) fn put<R: Wait>(
    rt: &R,
    alloc: Global,
    domain: &Domain<Plain, Bare>,
    book: &mut Book,
    no: u32,
) -> Result<(), Fail>
    requires home { (domain_identity domain.now).home ≡ home_of (book_table book.old) 0 1 }
    requires no_origin { (book_table book.old).origin ≡ [] }
    ensures { book_table book.new ≡ book_table book.old }
{
    let bucket = plain(rt, alloc, book, no)?;
    let mut port = domain.port(rt);
    if domain.put_plain(rt, &mut port, bucket).is_err() {
        return Err(Memory)?;
    }
    domain.settle(rt)?;
    Ok(())
}

/// Puts a loose bucket of one item, and settles.
pub(super) fn put_loose<R: Wait>(
    rt: &R,
    alloc: Global,
    domain: &Domain<Plain, Bare>,
    book: &mut Book,
    no: u32,
) -> Result<(), Fail>
    requires home { (domain_identity domain.now).home ≡ home_of (book_table book.old) 0 1 }
    requires no_origin { (book_table book.old).origin ≡ [] }
    ensures { book_table book.new ≡ book_table book.old }
{
    let bucket = loose(rt, alloc, book, no)?;
    let mut port = domain.port(rt);
    if domain.put_loose(rt, &mut port, bucket).is_err() {
        return Err(Memory)?;
    }
    domain.settle(rt)?;
    Ok(())
}

/// Puts a sealed bucket of one item, and settles.
pub(super) fn put_sealed<R: Wait>(
    rt: &R,
    alloc: Global,
    domain: &Domain<Plain, Bare>,
    book: &mut Book,
    no: u32,
    clock: &Clock<Bare>,
    pass: &mut Pass<Bare>,
) -> Result<(), Fail>
    requires home { (domain_identity domain.now).home ≡ home_of (book_table book.old) 0 1 }
    requires clock { (domain_identity domain.now).clock ≡ clock_id clock.now }
    requires here { IsPassOf clock.now pass.old }
    requires no_origin { (book_table book.old).origin ≡ [] }
    ensures here { IsPassOf clock.now pass.new }
    ensures table { book_table book.new ≡ book_table book.old }
{
    let bucket = sealed(rt, alloc, book, no, clock, pass)?;
    let mut port = domain.port(rt);
    if domain.put_sealed(rt, &mut port, bucket).is_err() {
        return Err(Memory)?;
    }
    domain.settle(rt)?;
    Ok(())
}
