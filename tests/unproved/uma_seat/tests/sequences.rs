//! Every sequence of at most six calls, of a seat and of plain lists beside it.
use super::body::Plain;
use super::clock::two_seats;
use super::lists::{Full, Lists};
use super::plain_seat::PlainSeat;
use smr_clock::{Bare, Clock};
use std::alloc::Global;
use std::sync::Wait;
use std::test::Fail;
use uma_bucket::Bucket;

/// What is called. A bucket that is taken is replaced by a new spare where it is renewed.
#[derive(Clone, Copy, Debug, PartialEq, Eq)]
enum Call {
    Alloc,
    FreeOwn,
    FreeOther,
    TakeCross,
    TakeOldest,
    RenewOldest,
    Reshelve,
    Refill,
}

const CALLS: [Call; 8] = [
    Call::Alloc,
    Call::FreeOwn,
    Call::FreeOther,
    Call::TakeCross,
    Call::TakeOldest,
    Call::RenewOldest,
    Call::Reshelve,
    Call::Refill,
];

/// One item in the allocation bucket, three in the bucket of each domain.
const NEARLY_FULL: [Call; 8] = [
    Call::FreeOwn,
    Call::Refill,
    Call::FreeOwn,
    Call::FreeOwn,
    Call::FreeOwn,
    Call::FreeOther,
    Call::FreeOther,
    Call::FreeOther,
];

/// A bucket of the other domain on the shelf, and one item more.
const ONE_SHELVED: [Call; 5] = [
    Call::FreeOther,
    Call::FreeOther,
    Call::FreeOther,
    Call::FreeOther,
    Call::FreeOwn,
];

/// Takes all that is left.
const ENDING: [Call; 13] = [
    Call::TakeOldest,
    Call::TakeOldest,
    Call::Alloc,
    Call::Alloc,
    Call::Alloc,
    Call::Alloc,
    Call::Alloc,
    Call::Alloc,
    Call::Alloc,
    Call::Alloc,
    Call::TakeCross,
    Call::TakeCross,
    Call::TakeCross,
];

/// What came out of a bucket: its domain, and the numbers of its items from the top.
fn see_bucket(taken: Option<(u8, Bucket<Plain>)>, seen: &mut Vec<Option<u32>>) -> Result<(), Fail> {
    let Some((domain, mut bucket)) = taken else {
        seen.push(None)?;
        return Ok(());
    };
    seen.push(Some(u32::from(domain)))?;
    for _ in 0..bucket.len() {
        seen.push(bucket.pop().map(|item| item.no()))?;
    }
    Ok(())
}

fn see_full(taken: Option<Full>, seen: &mut Vec<Option<u32>>) -> Result<(), Fail> {
    let Some(
        Full {
            domain,
            mut numbers,
        },
    ) = taken
    else {
        seen.push(None)?;
        return Ok(());
    };
    seen.push(Some(domain))?;
    for _ in 0..numbers.len() {
        seen.push(numbers.pop())?;
    }
    Ok(())
}

fn call_seat<R: Wait>(
    rt: &R,
    alloc: Global,
    worked: &mut PlainSeat,
    call: Call,
    no: u32,
    seen: &mut Vec<Option<u32>>,
) -> Result<(), Fail> {
    match call {
        Call::Alloc => seen.push(worked.alloc())?,
        Call::FreeOwn => worked.free(rt, alloc, no, 0).map(|_| ())?,
        Call::FreeOther => worked.free(rt, alloc, no, 1).map(|_| ())?,
        Call::TakeCross => seen.push(worked.take_cross())?,
        Call::TakeOldest => see_bucket(worked.take_oldest(), seen)?,
        Call::RenewOldest => see_bucket(worked.renew_oldest(alloc)?, seen)?,
        Call::Reshelve => worked.reshelve(),
        Call::Refill => seen.push(worked.refill())?,
    }
    seen.push(Some(worked.spare()))?;
    Ok(())
}

fn call_lists(
    alloc: Global,
    lists: &mut Lists,
    call: Call,
    no: u32,
    seen: &mut Vec<Option<u32>>,
) -> Result<(), Fail> {
    match call {
        Call::Alloc => seen.push(lists.alloc())?,
        Call::FreeOwn => lists.free_own(alloc, no)?,
        Call::FreeOther => lists.free_other(alloc, no)?,
        Call::TakeCross => seen.push(lists.take_cross())?,
        Call::TakeOldest => see_full(lists.take_oldest(), seen)?,
        Call::RenewOldest => see_full(lists.renew_oldest(), seen)?,
        Call::Reshelve => {}
        Call::Refill => seen.push(lists.refill()?)?,
    }
    seen.push(Some(lists.spare()))?;
    Ok(())
}

/// What is seen of the seat: the items that come out, and after each call how many spares there are.
fn seen_of_seat<R: Wait>(
    rt: &R,
    alloc: Global,
    clock: &Clock<Bare>,
    calls: &[Call],
) -> Result<Vec<Option<u32>>, Fail> {
    let mut worked = PlainSeat::new(alloc, clock, 2)?;
    let mut seen = Vec::new(alloc);
    let mut no = 0u32;
    for call in calls {
        call_seat(rt, alloc, &mut worked, *call, no, &mut seen)?;
        no = no.wrapping_add(1);
    }
    Ok(seen)
}

/// What is seen of the lists.
fn seen_of_lists(alloc: Global, calls: &[Call]) -> Result<Vec<Option<u32>>, Fail> {
    let mut lists = Lists::new(alloc);
    let mut seen = Vec::new(alloc);
    let mut no = 0u32;
    for call in calls {
        call_lists(alloc, &mut lists, *call, no, &mut seen)?;
        no = no.wrapping_add(1);
    }
    Ok(seen)
}

/// The start, the calls that the digits of a number name, to the base 8, and the ending.
fn calls_of(alloc: Global, start: &[Call], digits: u32, number: u32) -> Result<Vec<Call>, Fail> {
    let mut calls = Vec::new(alloc);
    for call in start {
        calls.push(*call)?;
    }
    let mut rest = number;
    for _ in 0..digits {
        calls.push(CALLS[(rest % 8) as usize])?;
        rest /= 8;
    }
    for call in ENDING {
        calls.push(call)?;
    }
    Ok(calls)
}

/// The first sequence of so many calls, after the start, that the seat and the lists answer differently.
fn disagreement_of<R: Wait>(
    rt: &R,
    alloc: Global,
    clock: &Clock<Bare>,
    start: &[Call],
    digits: u32,
    count: u32,
) -> Result<Option<Vec<Call>>, Fail> {
    for number in 0..count {
        let calls = calls_of(alloc, start, digits, number)?;
        if seen_of_seat(rt, alloc, clock, &calls)? != seen_of_lists(alloc, &calls)? {
            return Ok(Some(calls));
        }
    }
    Ok(None)
}

/// The first sequence of at most so many calls.
fn first_disagreement<R: Wait>(
    rt: &R,
    alloc: Global,
    clock: &Clock<Bare>,
    start: &[Call],
    most: u32,
) -> Result<Option<Vec<Call>>, Fail> {
    let mut count = 1u32;
    for digits in 0..=most {
        let found = disagreement_of(rt, alloc, clock, start, digits, count)?;
        if found.is_some() {
            return Ok(found);
        }
        count = count.wrapping_mul(8);
    }
    Ok(None)
}

#[test]
fn six_calls_near_the_edges_give_the_plain_lists(rt: HostRuntime) -> Result<(), Fail> {
    let (clock, _, _) = two_seats(rt.alloc(), 1)?;
    let found = first_disagreement(&rt, rt.alloc(), &clock, &NEARLY_FULL, 6)?;
    assert_eq!(rt; found, None);
    Ok(())
}

#[test]
fn five_calls_with_a_bucket_shelved_give_the_plain_lists(rt: HostRuntime) -> Result<(), Fail> {
    let (clock, _, _) = two_seats(rt.alloc(), 1)?;
    let found = first_disagreement(&rt, rt.alloc(), &clock, &ONE_SHELVED, 5)?;
    assert_eq!(rt; found, None);
    Ok(())
}
