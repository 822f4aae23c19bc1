ghost use Rattle.std.specs.Prelude.{◌≡◌, false, All, [], IfOk};
ghost use Rattle.deed_book.specs.Book.{book_table};
ghost use Rattle.deed_book.specs.FailShare.{share_table};
ghost use Rattle.uma_bucket.specs.Inboxes.{port_origin};
ghost use Rattle.uma_domain.specs.Domain.{domain_identity};
ghost use Rattle.uma_domain.specs.Identity.{home_of, origin_of};
ghost use Rattle.uma_domain.specs.Listed.{IsPlainOf};

use super::body::Plain;
use super::buckets::{plain, two_seats};
use crate::{Domain, Taken, TakenBucket};
use deed_book::{Book, FailShare, Memory};
use smr_clock::{Bare, Host};
use std::alloc::Global;
use std::ops::Range;
use std::snapshot::Snapshot;
use std::sync::Wait;
use std::test::Fail;
use std::thread::{Threads, join};
use uma_bucket::{Bucket, Port};
use uma_life::Body;

/// How many buckets the two threads have together, each of one item.
const BUCKETS: u32 = 2_000;

/// Buckets of the items of these numbers.
fn buckets<R: Wait>(
    rt: &R,
    alloc: Global,
    book: &mut Book,
    numbers: Range<u32>,
) -> Result<Vec<Bucket<Plain>>, Fail>
    requires no_origin { (book_table book.old).origin ≡ [] }
    ensures table { book_table book.new ≡ book_table book.old }
    ensures at_home { IfOk result (λ buckets. All (IsPlainOf (home_of (book_table book.old) 0 1)) buckets.items) }
{
    let mut buckets = Vec::new(alloc);
    for no in numbers {
        buckets.push(plain(rt, alloc, book, no)?)?;
    }
    Ok(buckets)
}

/// Puts a bucket and settles, and then takes the newest and puts it back. Answers whether there was one, and stops where memory is
/// wanting.
fn put_and_cycle<T: Body + Drop, H: Host, R: Wait>(
    rt: &R,
    domain: &Domain<T, H>,
    share: &mut FailShare,
    port: &mut Port<T, H>,
    bucket: Bucket<T>,
) -> Result<bool, Memory>
    requires plain { (domain_identity domain.now).smr ≡ false }
    requires share { share_table share.old ≡ (domain_identity domain.now).misses }
    requires port { port_origin port.old ≡ origin_of (domain_identity domain.now) }
    requires here { IsPlainOf (domain_identity domain.now).home bucket }
    ensures { (share_table share.new ≡ share_table share.old) × (port_origin port.new ≡ port_origin port.old) }
{
    let Ok(()) = domain.put_plain(rt, port, bucket) else {
        return Err(Memory);
    };
    domain.settle(rt)?;
    let Some(taken) = domain.take_plain(rt, share) else {
        return Ok(false);
    };
    match domain.put_plain(rt, port, taken) {
        Ok(()) => Ok(true),
        Err(_) => Err(Memory),
    }
}

/// The same with each bucket.
fn put_each<T: Body + Drop, H: Host, R: Wait>(
    rt: &R,
    domain: &Domain<T, H>,
    mut share: FailShare,
    mut buckets: Vec<Bucket<T>>,
) -> Result<bool, Memory>
    requires plain { (domain_identity domain.now).smr ≡ false }
    requires share { share_table share ≡ (domain_identity domain.now).misses }
    requires here { All (IsPlainOf (domain_identity domain.now).home) buckets.items }
{
    let mut port = domain.port(rt);
    for _ in 0..buckets.len() {
        let Some(bucket) = buckets.pop() else {
            return Ok(false);
        };
        if !put_and_cycle(rt, domain, &mut share, &mut port, bucket)? {
            return Ok(false);
        }
    }
    Ok(true)
}

/// The same by two threads.
fn two_put_each<T: Body + Drop + Send, H: Host + Send + Sync, R: Threads + Wait + Sync>(
    rt: &R,
    domain: &Domain<T, H>,
    shares: (FailShare, FailShare),
    ones: Vec<Bucket<T>>,
    others: Vec<Bucket<T>>,
) -> Result<bool, Memory>
    requires plain { (domain_identity domain.now).smr ≡ false }
    requires shares { (share_table shares.0 ≡ (domain_identity domain.now).misses) × (share_table shares.1 ≡ (domain_identity domain.now).misses) }
    requires here { All (IsPlainOf (domain_identity domain.now).home) ones.items × All (IsPlainOf (domain_identity domain.now).home) others.items }
{
    let (first, second) = shares;
    let (one, other) = join(
        rt,
        move || -> Result<bool, Memory>
            requires { ((domain_identity domain.now).smr ≡ false) × (share_table first ≡ (domain_identity domain.now).misses) × All (IsPlainOf (domain_identity domain.now).home) ones.items }
        { put_each(rt, domain, first, ones) },
        move || -> Result<bool, Memory>
            requires { ((domain_identity domain.now).smr ≡ false) × (share_table second ≡ (domain_identity domain.now).misses) × All (IsPlainOf (domain_identity domain.now).home) others.items }
        { put_each(rt, domain, second, others) },
    );
    if one == Ok(false) || other == Ok(false) {
        return Ok(false);
    }
    Ok(one? && other?)
}

/// How often each number is there.
fn counts(alloc: Global, mut taken: Taken<Plain, Bare>) -> Result<Vec<u32>, Fail> {
    let mut counts = vec![in alloc; 0u32; BUCKETS as usize]?;
    for _ in 0..taken.len() {
        if let Some(TakenBucket::Plain { mut bucket }) = taken.pop() {
            count(&mut counts, &mut bucket);
        }
    }
    Ok(counts)
}

/// Counts the item of a bucket.
fn count(counts: &mut [u32], bucket: &mut Bucket<Plain>) {
    let Some(item) = bucket.pop() else {
        return;
    };
    if let Some(count) = counts.get_mut(item.no() as usize) {
        *count = count.wrapping_add(1);
    }
}

#[test]
fn two_threads_lose_no_bucket(rt: HostRuntime) -> Result<(), Fail> {
    let mut book = Book::new(rt.alloc(), BUCKETS)?;
    let (clock, _, _) = two_seats(rt.alloc())?;
    let domain = Domain::new(rt.alloc(), &clock, Snapshot::of(&book), 0, 1, false)?;
    let shares = (domain.open_misses(&rt), domain.open_misses(&rt));
    let ones = buckets(&rt, rt.alloc(), &mut book, 0..BUCKETS / 2)?;
    let others = buckets(&rt, rt.alloc(), &mut book, BUCKETS / 2..BUCKETS)?;
    assert!(rt; two_put_each(&rt, &domain, shares, ones, others)?);
    domain.settle(&rt)?;
    assert_eq!(rt; domain.count(&rt), u64::from(BUCKETS));
    let taken = domain.take_all(&rt, rt.alloc(), &clock)?;
    let counts = counts(rt.alloc(), taken)?;
    assert!(rt; counts.iter().all(|count| *count == 1));
    Ok(())
}
