use super::hooks::{Stamp, Stamped};
use super::jobs::{Job, Task, all_run};
use super::setting::{PLAIN, new_clock, zone};
use super::stopped::Stopped;
use super::worker::{Worker, new_workers};
use crate::{AllocAsk, ZoneSet};
use std::alloc::Global;
use std::sync::atomic::Ordering;
use std::sync::{Arc, Mutex, Wait};
use std::test::Fail;
use uma_life::Live;

/// How many turns each of the four threads has.
const TURNS: u32 = 500;

/// How often a reader looks at a stamp in one section.
const LOOKS: u32 = 1_000;

/// The stamp of the item that a writer shows, as readers find it.
pub(super) type Shown = Mutex<Option<Stamp>>;

/// What a reader found in one section.
#[derive(Clone, Copy, Debug, PartialEq, Eq)]
enum Found {
    /// No item was shown, or the section wasn't entered.
    Nothing,
    /// The stamp was the same at each look.
    Same,
    /// The item was built anew inside the section.
    Changed,
}

/// Shows an item in place of the one that was shown.
fn show<R: Wait>(rt: &R, shown: &Shown, live: &Live<Stamped>) -> Result<(), Stopped> {
    let Ok(stamp) = Arc::try_clone(live.body().data()) else {
        return Err(Stopped::Memory);
    };
    let mut guard = shown.lock(rt);
    *guard = Some(stamp);
    Ok(())
}

/// The stamp that is shown.
fn shown_stamp<R: Wait>(rt: &R, shown: &Shown) -> Option<Stamp> {
    let guard = shown.lock(rt);
    match &*guard {
        Some(stamp) => Arc::try_clone(stamp).ok(),
        None => None,
    }
}

/// Looks at the shown stamp again and again.
fn watch<R: Wait>(rt: &R, shown: &Shown) -> Found {
    let Some(stamp) = shown_stamp(rt, shown) else {
        return Found::Nothing;
    };
    let first = stamp.load(Ordering::SeqCst);
    for _ in 0..LOOKS {
        if stamp.load(Ordering::SeqCst) != first {
            return Found::Changed;
        }
    }
    Found::Same
}

/// Enters a section, looks at the shown stamp and exits.
fn look<R: Wait>(rt: &R, shown: &Shown, worker: &mut Worker<'_>) -> Result<Found, Stopped> {
    if worker.enter().is_err() {
        return Ok(Found::Nothing);
    }
    let found = watch(rt, shown);
    worker.exit()?;
    Ok(found)
}

/// A reader's turns. In how many of its sections it saw a stamp; None where it saw one change in a section.
pub(super) fn read_all<R: Wait>(rt: &R, shown: &Shown, mut worker: Worker<'_>) -> Option<u32> {
    let mut sections = 0u32;
    for _ in 0..TURNS {
        match look(rt, shown, &mut worker) {
            Ok(Found::Nothing) => {}
            Ok(Found::Same) => sections = sections.wrapping_add(1),
            Ok(Found::Changed) | Err(_) => return None,
        }
    }
    Some(sections)
}

/// Builds an item with this stamp, shows it in place of the one that the worker held before, and frees that. Whether
/// there was an item.
fn write<R: Wait>(
    rt: &R,
    alloc: Global,
    shown: &Shown,
    worker: &mut Worker<'_>,
    arg: u64,
) -> Result<bool, Stopped> {
    let ask = AllocAsk {
        arg,
        reserve: false,
    };
    if worker.request(rt, alloc, ask)?.is_some() {
        return Ok(false);
    }
    let Some(live) = worker.held.last() else {
        return Err(Stopped::Empty);
    };
    show(rt, shown, live)?;
    worker.release_older(rt, alloc)?;
    Ok(true)
}

/// A writer's turns. How many items it built.
pub(super) fn write_all<R: Wait>(
    rt: &R,
    alloc: Global,
    shown: &Shown,
    mut worker: Worker<'_>,
) -> Result<u32, Stopped> {
    let mut built = 0u32;
    for turn in 0..TURNS {
        let arg = u64::from(turn) + 8;
        if write(rt, alloc, shown, &mut worker, arg)? {
            built = built.wrapping_add(1);
        }
    }
    Ok(built)
}

/// A writer that shows an item with this stamp, and a reader that looks at what it shows.
fn add_pair<'a, R: Wait>(
    rt: &R,
    alloc: Global,
    jobs: &mut Vec<Job<'a>>,
    shown: &'a Shown,
    workers: &mut Vec<Worker<'a>>,
    arg: u64,
) -> Result<(), Fail> {
    let (Some(mut writer), Some(reader)) = (workers.pop(), workers.pop()) else {
        return Err(Fail::new("too few workers"));
    };
    if !write(rt, alloc, shown, &mut writer, arg)? {
        return Err(Fail::new("no item"));
    }
    jobs.push(Job {
        worker: writer,
        shown,
        task: Task::Write,
    })?;
    jobs.push(Job {
        worker: reader,
        shown,
        task: Task::Read,
    })?;
    Ok(())
}

#[test]
fn no_section_sees_a_stamp_change(rt: HostRuntime) -> Result<(), Fail> {
    let (clock, passes) = new_clock(rt.alloc(), 4, 64)?;
    let set = ZoneSet { smr: true, ..PLAIN };
    let zone = zone(rt.alloc(), &clock, 512, set)?;
    let (shown, other_shown) = (Mutex::new(None), Mutex::new(None));
    let mut workers = new_workers(&rt, rt.alloc(), &zone, &clock, passes, 4)?;
    let mut jobs = Vec::new(rt.alloc());
    add_pair(&rt, rt.alloc(), &mut jobs, &shown, &mut workers, 1)?;
    add_pair(&rt, rt.alloc(), &mut jobs, &other_shown, &mut workers, 2)?;
    assert!(rt; all_run(&rt, rt.alloc(), jobs)?);
    Ok(())
}
