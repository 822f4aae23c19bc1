ghost use Rattle.std.specs.Prelude.{◌≡◌, ◌≤◌};
ghost use Rattle.smr_clock.specs.Belongs.{IsPassOf, clock_id};
ghost use Rattle.name_cache.specs.Cache.{cache_clock};

use super::setting::{new_cache, take_pass};
use super::worker::{Worker, new_worker};
use crate::{BindRefused, NameCache};
use deed_book::Memory;
use name_rows::Names;
use smr_clock::{Clock, Pass};
use smr_core::Phase;
use std::alloc::Global;
use std::sync::Wait;
use std::test::Fail;
use std::thread::{Threads, join};

/// The values of a key are from this many times the key on.
const SPAN: u64 = 10_000;

const TURNS: u64 = 2_000;

/// Who only looks names up.
#[derive(Drop)]
struct Reader<'a> {
    cache: &'a NameCache,
    clock: &'a Clock<Names>,
    pass: Pass<Names>,
    ghost clocked: { clock_id clock.now ≡ cache_clock cache.now },
    ghost here: { IsPassOf clock.now pass },
}

impl Reader<'_> {
    // A look, and whether what it found was bound to that key.
    fn is_right(&mut self, key: u64) -> bool {
        match self.pass.phase() {
            Phase::Outside => match self.cache.look(self.clock, &mut self.pass, key) {
                Ok(Some(value)) => value / SPAN == key,
                Ok(None) | Err(_) => true,
            },
            _ => false,
        }
    }
}

// Two keys of one row of eight.
fn key_of(turn: u64) -> u64
    ensures { result ≤ 11 }
{
    3 + turn % 2 * 8
}

fn looks(mut reader: Reader<'_>) -> bool {
    let mut right = true;
    for turn in 0..TURNS {
        if !reader.is_right(key_of(turn)) {
            right = false;
        }
    }
    right
}

// A bind, and whether it went well. It may be refused where all entries wait for the reader.
fn binds<R: Wait>(rt: &R, alloc: Global, worker: &mut Worker<'_>, turn: u64) -> Result<bool, Memory> {
    let key = key_of(turn);
    match worker.try_bind(rt, alloc, key, key * SPAN + turn % SPAN) {
        Some(Ok(receipt)) => Ok(receipt.row == 3),
        Some(Err(BindRefused::Memory)) => Err(Memory),
        Some(Err(refused)) => Ok(matches!(refused, BindRefused::Zone { .. })),
        None => Ok(false),
    }
}

fn writes<R: Wait>(rt: &R, alloc: Global, mut worker: Worker<'_>) -> Result<bool, Memory> {
    let mut right = true;
    for turn in 0..TURNS {
        if !binds(rt, alloc, &mut worker, turn)? {
            right = false;
        }
    }
    Ok(right)
}

// One thread binds two keys of one row in turn while another looks them up. Whether all went right; the looks have to where memory is
// wanting too.
fn race<R: Threads + Wait + Sync>(
    rt: &R,
    alloc: Global,
    worker: Worker<'_>,
    reader: Reader<'_>,
) -> Result<bool, Memory> {
    let (wrote, right) = join(rt, move || writes(rt, alloc, worker), move || looks(reader));
    Ok(right && wrote?)
}

#[test]
fn a_look_finds_only_what_was_bound_to_its_key(rt: HostRuntime) -> Result<(), Fail> {
    let alloc = rt.alloc();
    let (cache, clock, mut passes) = new_cache(alloc, 8, 1, 0)?;
    let reader = Reader {
        cache: &cache,
        clock: &clock,
        pass: take_pass(&clock, &mut passes)?,
    };
    let worker = new_worker(&rt, alloc, &cache, &clock, passes)?;
    assert!(rt; race(&rt, alloc, worker, reader)?);
    Ok(())
}
