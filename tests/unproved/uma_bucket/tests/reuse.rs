use super::body::{Plain, PlainBook, idle_hooks};
use super::clock::two_seats;
use crate::{Bucket, Freed, Loose};
use smr_clock::AdvanceRefused;
use std::alloc::Global;
use std::sync::Wait;
use std::test::Fail;

/// The last hand of 32 bits: the tag of the first goal is 1.
const BELOW_WRAP: u64 = 4_294_967_295;

/// A full bucket of freed items of zone 0, in the room of an empty one.
fn filled<R: Wait>(
    rt: &R,
    alloc: Global,
    book: &mut PlainBook,
    bucket: Bucket<Plain>,
    numbers: [u32; 4],
) -> Result<Loose<Plain>, Fail> {
    if bucket.len() != 0 {
        return Err(Fail::new("not empty"));
    }
    let mut loose = Loose::reuse(bucket);
    for no in numbers {
        let Ok(item) = book.cached(rt, alloc, no)?.build(&idle_hooks(), 0) else {
            return Err(Fail::new("refused"));
        };
        if loose.len() < loose.size() {
            loose.push(Freed::of(item));
        }
    }
    Ok(loose)
}

#[test]
fn a_bucket_waits_for_the_section_that_may_see_it(rt: HostRuntime) -> Result<(), Fail> {
    let mut book = PlainBook::new(rt.alloc(), 8)?;
    let bucket = Bucket::make(rt.alloc(), 4)?;
    let loose = filled(&rt, rt.alloc(), &mut book, bucket, [0, 1, 2, 3])?;
    let (clock, mut reader, mut writer) = two_seats(rt.alloc(), BELOW_WRAP)?;
    clock.enter(&mut reader)?;
    let Ok(sealed) = loose.seal(&clock, &mut writer) else {
        panic!(rt; "no room")
    };
    let Err(sealed) = sealed.try_open(&clock) else {
        panic!(rt; "a section may see it")
    };
    assert_eq!(rt; (sealed.len(), sealed.goal.tag().raw), (4, 1));
    clock.exit(&mut reader);
    let Ok(ripe) = sealed.try_open(&clock) else {
        panic!(rt; "no section is open")
    };
    assert_eq!(rt; ripe.len(), 4);
    let (bucket, note) = ripe.into_cached(&idle_hooks());
    clock.absorb(&mut writer, note);
    assert_eq!(rt; (bucket.len(), bucket.size()), (4, 4));
    assert_eq!(rt; clock.hands(&mut writer), (BELOW_WRAP + 2, BELOW_WRAP + 2));
    Ok(())
}

#[test]
fn a_bucket_stays_loose_while_the_window_is_used_up(rt: HostRuntime) -> Result<(), Fail> {
    let mut book = PlainBook::new(rt.alloc(), 8)?;
    let (bucket, other) = (Bucket::make(rt.alloc(), 4)?, Bucket::make(rt.alloc(), 4)?);
    let older = filled(&rt, rt.alloc(), &mut book, bucket, [0, 1, 2, 3])?;
    let loose = filled(&rt, rt.alloc(), &mut book, other, [4, 5, 6, 7])?;
    let (clock, mut reader, mut writer) = two_seats(rt.alloc(), BELOW_WRAP)?;
    clock.enter(&mut reader)?;
    let Ok(older) = older.seal(&clock, &mut writer) else {
        panic!(rt; "no room")
    };
    clock.advance(&mut writer)?;
    let Err((loose, refused)) = loose.seal(&clock, &mut writer) else {
        panic!(rt; "past the window")
    };
    let (read, write) = (BELOW_WRAP, BELOW_WRAP + 4);
    assert_eq!(rt; refused, AdvanceRefused::TooFar { read, write });
    assert_eq!(rt; loose.len(), 4);
    clock.exit(&mut reader);
    // The poll of the older bucket moves the read hand on.
    assert!(rt; older.try_open(&clock).is_ok());
    let Ok(sealed) = loose.seal(&clock, &mut writer) else {
        panic!(rt; "no room after the exit")
    };
    assert_eq!(rt; (sealed.len(), sealed.goal.tag().raw), (4, 5));
    Ok(())
}

#[test]
fn a_seal_loads_the_write_hand_though_its_pass_is_behind(rt: HostRuntime) -> Result<(), Fail> {
    let mut book = PlainBook::new(rt.alloc(), 8)?;
    let bucket = Bucket::make(rt.alloc(), 4)?;
    let loose = filled(&rt, rt.alloc(), &mut book, bucket, [0, 1, 2, 3])?;
    let (clock, mut ahead, mut behind) = two_seats(rt.alloc(), 1)?;
    clock.advance(&mut ahead)?;
    // The mark of this section is 3. The pass that seals has seen 1, by which the goal would be 3 too.
    clock.enter(&mut ahead)?;
    let Ok(sealed) = loose.seal(&clock, &mut behind) else {
        panic!(rt; "no room")
    };
    assert_eq!(rt; sealed.goal.tag().raw, 5);
    assert_eq!(rt; clock.hands(&mut behind), (1, 5));
    let Err(sealed) = sealed.try_open(&clock) else {
        panic!(rt; "a section may see it")
    };
    clock.exit(&mut ahead);
    assert!(rt; sealed.try_open(&clock).is_ok());
    Ok(())
}
