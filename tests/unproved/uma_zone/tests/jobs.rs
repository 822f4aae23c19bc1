use super::churning::churn;
use super::limits::{hold_many, squeeze};
use super::stopped::Stopped;
use super::watching::{Shown, read_all, write_all};
use super::worker::Worker;
use std::alloc::Global;
use std::sync::Wait;
use std::thread::{Threads, map_vec};

/// What a worker does.
#[derive(Clone, Copy, Debug, PartialEq, Eq)]
pub(super) enum Task {
    /// It allocates and frees.
    Churn,
    /// It shows its items.
    Write,
    /// It looks at the items that are shown.
    Read,
    /// It holds many items at a time.
    Hold,
    /// It changes the zone's limit.
    Squeeze,
}

/// What a thread gets.
#[derive(Drop)]
pub(super) struct Job<'a> {
    pub worker: Worker<'a>,
    pub shown: &'a Shown,
    pub task: Task,
}

/// Whether the turns of a job went well: its counts add up, it built items, or it saw stamps and none that changed inside a
/// section.
fn run<R: Wait>(rt: &R, alloc: Global, job: Job<'_>) -> Result<bool, Stopped> {
    let Job {
        mut worker,
        shown,
        task,
    } = job;
    match task {
        Task::Churn => churn(rt, alloc, worker),
        Task::Write => Ok(write_all(rt, alloc, shown, worker)? > 0),
        Task::Read => match read_all(rt, shown, worker) {
            Some(sections) => Ok(sections > 0),
            None => Ok(false),
        },
        Task::Hold => hold_many(rt, alloc, &mut worker),
        Task::Squeeze => Ok(squeeze(rt, &worker)),
    }
}

/// Runs each job in a thread of its own. Whether each went well; where memory was wanting in one of them, the others have to.
pub(super) fn all_run<R: Threads + Wait + Sync>(
    rt: &R,
    alloc: Global,
    jobs: Vec<Job<'_>>,
) -> Result<bool, Stopped> {
    let each = map_vec(rt, jobs, &|job| run(rt, alloc, job))?;
    if each.iter().any(|ended| *ended == Ok(false)) {
        return Ok(false);
    }
    for ended in each.iter() {
        (*ended)?;
    }
    Ok(true)
}
