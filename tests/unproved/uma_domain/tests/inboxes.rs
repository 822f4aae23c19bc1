ghost use Rattle.std.specs.Prelude.{◌≡◌};
ghost use Rattle.uma_bucket.specs.Inboxes.{port_origin};
ghost use Rattle.uma_domain.specs.Domain.{domain_identity};
ghost use Rattle.uma_domain.specs.Identity.{origin_of};
ghost use Rattle.uma_domain.specs.Listed.{IsPlainOf};

use super::body::Plain;
use super::buckets::{plain, two_seats};
use super::working_set::take;
use crate::Domain;
use deed_book::{Book, Memory};
use smr_clock::Bare;
use std::snapshot::Snapshot;
use std::sync::Wait;
use std::test::Fail;
use std::thread::{Threads, join};
use uma_bucket::{Bucket, Port};

type Pair = (Bucket<Plain>, Bucket<Plain>);

/// Puts two buckets by one port. Only want of memory stops it.
fn put_two<R: Wait>(
    rt: &R,
    domain: &Domain<Plain, Bare>,
    mut port: Port<Plain, Bare>,
    pair: Pair,
) -> Result<(), Memory>
    requires port { port_origin port ≡ origin_of (domain_identity domain.now) }
    requires here { IsPlainOf (domain_identity domain.now).home pair.0 × IsPlainOf (domain_identity domain.now).home pair.1 }
{
    let (first, second) = pair;
    let Ok(()) = domain.put_plain(rt, &mut port, first) else {
        return Err(Memory);
    };
    match domain.put_plain(rt, &mut port, second) {
        Ok(()) => Ok(()),
        Err(_) => Err(Memory),
    }
}

/// Two threads put two buckets each.
fn put_four<R: Threads + Wait + Sync>(
    rt: &R,
    domain: &Domain<Plain, Bare>,
    ones: Pair,
    others: Pair,
) -> Result<(), Memory>
    requires ones { IsPlainOf (domain_identity domain.now).home ones.0 × IsPlainOf (domain_identity domain.now).home ones.1 }
    requires others { IsPlainOf (domain_identity domain.now).home others.0 × IsPlainOf (domain_identity domain.now).home others.1 }
{
    let (a, b) = (domain.port(rt), domain.port(rt));
    let (one, other) = join(
        rt,
        move || -> Result<(), Memory>
            requires { (port_origin a ≡ origin_of (domain_identity domain.now)) × IsPlainOf (domain_identity domain.now).home ones.0 × IsPlainOf (domain_identity domain.now).home ones.1 }
        { put_two(rt, domain, a, ones) },
        move || -> Result<(), Memory>
            requires { (port_origin b ≡ origin_of (domain_identity domain.now)) × IsPlainOf (domain_identity domain.now).home others.0 × IsPlainOf (domain_identity domain.now).home others.1 }
        { put_two(rt, domain, b, others) },
    );
    one?;
    other
}

/// The numbers from `from` to `to`, in their order.
fn between(taken: &[Option<u32>; 4], from: u32, to: u32) -> [u32; 2] {
    let mut found = [99, 99];
    let mut count = 0;
    for no in taken {
        if let Some(no) = no {
            if *no >= from && *no < to && count < 2 {
                found[count] = *no;
                count += 1;
            }
        }
    }
    found
}

#[test]
fn two_ports_are_settled_in_their_orders(rt: HostRuntime) -> Result<(), Fail> {
    for _ in 0..100 {
        let mut book = Book::new(rt.alloc(), 4)?;
        let (clock, _, _) = two_seats(rt.alloc())?;
        let domain = Domain::new(rt.alloc(), &clock, Snapshot::of(&book), 0, 1, false)?;
        let mut share = domain.open_misses(&rt);
        let ones = (plain(&rt, rt.alloc(), &mut book, 0)?, plain(&rt, rt.alloc(), &mut book, 1)?);
        let others = (plain(&rt, rt.alloc(), &mut book, 2)?, plain(&rt, rt.alloc(), &mut book, 3)?);
        put_four(&rt, &domain, ones, others)?;
        // They lie in the inbox, and in no list.
        assert_eq!(rt; domain.count(&rt), 0);
        assert_eq!(rt; domain.settle(&rt)?, 4);
        assert_eq!(rt; domain.settle(&rt)?, 0);
        assert_eq!(rt; domain.count(&rt), 4);
        let taken = [
            take(&rt, &domain, &mut share),
            take(&rt, &domain, &mut share),
            take(&rt, &domain, &mut share),
            take(&rt, &domain, &mut share),
        ];
        // The newest of each port first.
        assert_eq!(rt; between(&taken, 0, 2), [1, 0]);
        assert_eq!(rt; between(&taken, 2, 4), [3, 2]);
        assert_eq!(rt; take(&rt, &domain, &mut share), None);
    }
    Ok(())
}

#[test]
fn sums_settle_first(rt: HostRuntime) -> Result<(), Fail> {
    let mut book = Book::new(rt.alloc(), 4)?;
    let (clock, _, _) = two_seats(rt.alloc())?;
    let domain = Domain::new(rt.alloc(), &clock, Snapshot::of(&book), 0, 1, false)?;
    let mut port = domain.port(&rt);
    let bucket = plain(&rt, rt.alloc(), &mut book, 0)?;
    let Ok(()) = domain.put_plain(&rt, &mut port, bucket) else {
        return Err(Memory)?;
    };
    assert_eq!(rt; domain.count(&rt), 0);
    let sums = domain.sums(&rt)?;
    assert_eq!(rt; sums.deferred, 0);
    assert_eq!(rt; domain.count(&rt), 1);
    Ok(())
}
