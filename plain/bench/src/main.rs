//! Work of a known size for measurements: a script takes the time of whole runs, the program takes
//! none.

#![deny(unsafe_op_in_unsafe_fn)]

#![cfg_attr(unix, no_main)]
use plain_std::alloc::AllocGlobal;
use plain_std::eprintln;
use plain_std::println;
use plain_std::rt::HostRuntime;
use plain_std::rt::Print;
use plain_std::string::String;
use plain_std::vec::Vec;
mod addresses;
mod asmap_work;
mod calls_work;
mod codecs_work;
mod compile_work;
mod index_work;
mod lines_work;
mod nodes_work;
mod numbers;
mod refusal;
mod table_work;
mod tables_work;
mod task;

use asmap_work::run_on_asmap;
use host_io::{DirFolder, Lock};
use plain_std::process::ExitCode;
use plain_std::rt::{Env, Files};
use plain_std::{env, io};
use refusal::Refusal;
use table_work::run_on_text;
use tables_work::fill_tables;
use task::Task;

/// Returns the arguments after the program's name.
fn words_of(rt: &(impl Env + AllocGlobal)) -> io::Result<Vec<String>> {
    let mut words = Vec::new(rt.alloc());
    for word in env::args(rt)?.skip(1) {
        words.push(word)?;
    }
    Ok(words)
}

/// Returns the task that the arguments name.
fn task_of(rt: &(impl Env + AllocGlobal)) -> Result<Task, Refusal> {
    let words = words_of(rt).map_err(|_| Refusal::NoWords)?;
    Task::of(words.as_slice())
}

/// Does the task, and returns its sum.
fn sum_of<R: Files + AllocGlobal>(rt: &R, task: Task) -> Result<u64, Refusal>
where
    R::File: Lock,
{
    match task {
        Task::Asmap(work) => run_on_asmap(rt.alloc(), &mut DirFolder::make(rt), work),
        Task::Table(work) => run_on_text(rt.alloc(), &mut DirFolder::make(rt), work),
        Task::Calls(work) => work.run(rt.alloc()),
        Task::Codecs(work) => work.run(rt.alloc()),
        Task::Index(work) => work.run(rt.alloc()),
        Task::Lines(work) => work.run(rt.alloc()),
        Task::Nodes(work) => work.run(rt.alloc()),
        Task::Tables(records) => fill_tables(rt.alloc(), records),
    }
}

/// Does the task that the arguments name, and prints its line.
fn measure<R: Env + Files + Print + AllocGlobal>(rt: &R) -> Result<(), Refusal>
where
    R::File: Lock,
{
    let task = task_of(rt)?;
    let sum = sum_of(rt, task)?;
    let word = task.word();
    println!(rt; "{word} {sum}").map_err(|_| Refusal::NotPrinted)
}

fn program(rt: HostRuntime) -> ExitCode {
    match measure(&rt) {
        Ok(()) => ExitCode::SUCCESS,
        Err(refusal) => {
            let _ = eprintln!(rt; "bench: {}", refusal.text());
            ExitCode::FAILURE
        }
    }
}

plain_std::entry!(program);
