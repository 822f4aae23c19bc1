//! Tests on `run`, over memory: a value that it leaves, streams that fail, and a gate that holds. Rows that only print are cases
//! of the program (`tests/cases`).

ghost use Rattle.std.specs.Prelude.{◌≤◌};

mod faults;
mod gates;
mod halls;
mod refusals;
mod texts;

use crate::replaying::{AnyHall, Finish};
use crate::run::run;
use std::alloc::Global;
use std::sync::Wait;
use std::test::Fail;
use std::thread::Threads;
use replay_rounds::PlainNames;
use uma_io::{MemSink, MemSource};
use uma_replay::{FreeGate, Gate, Hall};

/// How a source and a sink behave: how many bytes a read gives, for how many there is room, and which calls fail, from 1.
#[derive(Drop)]
struct Outside {
    each: usize,
    room: usize,
    failing_reads: Vec<u64>,
    failing_writes: Vec<u64>,
    ghost gives: { 1 ≤ each },
}

/// Runs with these words on this input under a gate, and answers the end and what was written.
fn end_of<R: AllocGlobal + Threads + Wait + Sync, G: Gate + Sync>(
    rt: &R,
    words: &[&str],
    input: &str,
    outside: Outside,
    gate: &G,
) -> Result<(Finish, Vec<u8>), Fail> {
    let alloc = rt.alloc();
    let bytes = Vec::from_slice(alloc, input.as_bytes())?;
    let mut owned = Vec::new(alloc);
    for word in words {
        owned.push(String::from_str(alloc, word)?)?;
    }
    let mut source = MemSource::new(bytes, outside.each, outside.failing_reads);
    let mut sink = MemSink::new(alloc, outside.room, outside.failing_writes)?;
    let finish = run(rt, alloc, &owned, &mut source, &mut sink, gate);
    Ok((finish, Vec::from_slice(alloc, sink.bytes())?))
}

/// Replays this input under a gate, where nothing of the outside fails.
fn replayed_under<R: AllocGlobal + Threads + Wait + Sync, G: Gate + Sync>(
    rt: &R,
    input: &str,
    gate: &G,
) -> Result<Finish, Fail> {
    let outside = Outside {
        each: 4096,
        room: 4096,
        failing_reads: Vec::new(rt.alloc()),
        failing_writes: Vec::new(rt.alloc()),
    };
    let (finish, _) = end_of(rt, &["replay"], input, outside, gate)?;
    Ok(finish)
}

/// What the replay of this input, which has no names, leaves behind, where nothing of the outside fails.
fn hall_of<R: AllocGlobal + Threads + Wait + Sync>(
    rt: &R,
    input: &str,
) -> Result<Hall<PlainNames>, Fail> {
    let Finish { hall, .. } = replayed_under(rt, input, &FreeGate)?;
    match hall {
        Some(AnyHall::Plain { hall }) => Ok(hall),
        _ => Err(Fail::new("no hall without names")),
    }
}
