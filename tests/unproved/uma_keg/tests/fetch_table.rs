//! Fetches at the edges of the limit, the reserve and the cap, beside a plain function that is proved to be the
//! definition of how a fetch ends.
ghost use Rattle.uma_keg.specs.CountsFound.{AreSmall};

use crate::tests::calls::{PlainKeg, adds_by_the_last, fetches};
use crate::tests::endings::{Found, ending, left};
use crate::tests::refusing::no_refusal;
use crate::{FetchAsk, FetchRefused};
use std::alloc::Global;
use std::sync::Wait;
use std::test::Fail;
use uma_bucket::Bucket;

/// Fetches of one keg: its size of an item, its cap and its reserve, whether a slab was brought in before, and given up
/// where the reserve allowed it, the limit of its zone, and what is asked for. Every `turns`-th fetch has the right to
/// the reserve, and none where that is 0.
#[derive(Clone, Copy, Debug, PartialEq, Eq)]
struct Row {
    size: u32,
    cap: u32,
    reserve: u64,
    brought: bool,
    limit: u64,
    most: u32,
    turns: u32,
}

/// A fetch that ended otherwise than its numbers tell, or left other numbers.
#[derive(Clone, Copy, Debug, PartialEq, Eq)]
struct Disagreement {
    row: Row,
    turn: u32,
    answer: Option<Result<u32, FetchRefused>>,
    left: Found,
}

/// What a fetch of zone 0 finds.
fn found_in(keg: &PlainKeg) -> Found
    ensures { AreSmall result.counts }
{
    Found {
        counts: keg.counts(),
        out: keg.out(0),
        limit: keg.limit(0),
    }
}

/// A keg of a row, with zone 0.
fn keg_of<R: Wait>(rt: &R, alloc: Global, row: Row) -> Result<PlainKeg, Fail> {
    let (mut keg, mut rights) = PlainKeg::new(alloc, row.size, row.cap, row.reserve, no_refusal())?;
    if row.brought {
        keg.bring(rt, alloc, 0)?;
        keg.free_slabs(rt);
    }
    adds_by_the_last(&mut keg, &mut rights, row.limit);
    Ok(keg)
}

/// The first of sixteen fetches that disagrees. Before the seventh the limit is halved, and before the twelfth it is as
/// it was. No keg of the table has more than twelve items, so four are refused.
fn first_disagreement<R: Wait>(
    rt: &R,
    alloc: Global,
    row: Row,
) -> Result<Option<Disagreement>, Fail> {
    let mut keg = keg_of(rt, alloc, row)?;
    let mut into = Bucket::make(alloc, 16)?;
    for turn in 0..16 {
        let ask = FetchAsk {
            zone: 0,
            most: row.most,
            reserve: row.turns > 0 && turn % row.turns == 0,
            domain: 0,
        };
        match turn {
            6 => keg.set_limit(0, row.limit / 2),
            11 => keg.set_limit(0, row.limit),
            _ => 0,
        };
        let found = found_in(&keg);
        let outcome = ending(found, ask);
        let after = left(found, outcome);
        let answer = outcome.map_err(|refusal| FetchRefused::Refused { refusal });
        let fetched = fetches(rt, alloc, &mut keg, &no_refusal(), ask, &mut into)?;
        let stands = found_in(&keg);
        if fetched != Some(answer) || stands != after {
            return Ok(Some(Disagreement {
                row,
                turn,
                answer: fetched,
                left: stands,
            }));
        }
    }
    Ok(None)
}

/// The first disagreement in the rows of one keg and limit.
fn disagreement_in<R: Wait>(rt: &R, alloc: Global, row: Row) -> Result<Option<Disagreement>, Fail> {
    for most in 1..5 {
        for turns in 0..4 {
            let row = Row { most, turns, ..row };
            let found = first_disagreement(rt, alloc, row)?;
            if found.is_some() {
                return Ok(found);
            }
        }
    }
    Ok(None)
}

/// The first disagreement in the rows of one size and cap.
fn disagreement_of<R: Wait>(
    rt: &R,
    alloc: Global,
    size: u32,
    cap: u32,
    brought: bool,
) -> Result<Option<Disagreement>, Fail> {
    for reserve in 0..6 {
        for limit in 0..6 {
            let row = Row {
                size,
                cap,
                reserve,
                brought,
                limit,
                most: 1,
                turns: 0,
            };
            let found = disagreement_in(rt, alloc, row)?;
            if found.is_some() {
                return Ok(found);
            }
        }
    }
    Ok(None)
}

#[test]
fn fetches_end_as_their_numbers_tell(rt: HostRuntime) -> Result<(), Fail> {
    for size in [4096, 2048, 1024] {
        for cap in 1..4 {
            let found = disagreement_of(&rt, rt.alloc(), size, cap, false)?;
            assert_eq!(rt; found, None);
            let found = disagreement_of(&rt, rt.alloc(), size, cap, true)?;
            assert_eq!(rt; found, None);
        }
    }
    Ok(())
}
