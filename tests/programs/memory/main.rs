//! `memory` does a job that needs memory, and prints what came of it.
//!
//! Standard input has the name of the job, and how many allocations are to come before it, so that any allocation of the job
//! can be made the one that fails. The exit status is 0, or 1 where the job wasn't begun or the output failed.
#![tactic(auto)]

mod job;
mod jobs;
mod through;

use job::{Fault, Job, Task};
use std::alloc::{AllocError, Global};
use std::io::Read;

// Allocates so many times.
fn allocate(alloc: Global, count: u32) -> Result<(), AllocError> {
    for _ in 0..count {
        let _byte = Box::new(alloc, 0u8)?;
    }
    Ok(())
}

// Makes what the job writes, allocates so many times, and does it.
fn run(rt: &(impl Print + AllocGlobal), job: Job, count: u32) -> Result<(), Fault> {
    match job {
        Job::Write => {
            let value = jobs::nested(rt.alloc())?;
            allocate(rt.alloc(), count)?;
            jobs::write(rt, &value)
        }
        Job::WriteUnknown => {
            let value = jobs::nested_unknown(rt.alloc())?;
            allocate(rt.alloc(), count)?;
            jobs::write_unknown(rt, &value)
        }
        Job::Put(writing) => {
            let value = jobs::nested(rt.alloc())?;
            let unknown = jobs::nested_unknown(rt.alloc())?;
            allocate(rt.alloc(), count)?;
            through::put(rt, writing, &value, &unknown)
        }
        Job::Alone(task) => {
            allocate(rt.alloc(), count)?;
            work(rt, task)
        }
    }
}

// Does a task, for which nothing has to be made before.
fn work(rt: &(impl Print + AllocGlobal), task: Task) -> Result<(), Fault> {
    match task {
        Task::Read => jobs::read(rt),
        Task::ReadClaim => jobs::read_claim(rt),
        Task::Skip => jobs::skip(rt, b"\x92\x81\x05\x91\xa1a\xdc\x00\x01\xc0"),
        Task::SkipEmpty => jobs::skip(rt, b"\x90"),
        Task::Check => jobs::check(rt),
        Task::Make => jobs::make(rt),
        Task::Again(kind) => jobs::again_as(rt, kind),
        Task::WriteKept(kept) => jobs::write_kept(rt, kept),
        Task::ReadThrough(reading) => through::read(rt, reading),
        Task::Lines(checks) => through::lines(rt, checks),
    }
}

fn main(rt: HostRuntime) -> Result<(), Fault> {
    let mut line = [0; 64];
    let n = rt.reader().read(&mut line)?;
    let (job, count) = Job::from_line(&line[..n])?;
    run(&rt, job, count)
}
