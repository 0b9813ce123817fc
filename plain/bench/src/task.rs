use crate::asmap_work::AsmapWork;
use crate::calls_work::{CallsWork, Kind as CallsKind};
use crate::codecs_work::{CodecsWork, Kind as CodecsKind};
use crate::index_work::{IndexWork, Kind};
use crate::lines_work::LinesWork;
use crate::nodes_work::NodesWork;
use crate::refusal::Refusal;
use crate::table_work::TableWork;
use plain_std::string::String;

/// What the arguments ask for.
#[derive(Clone, Copy)]
pub(crate) enum Task {
    /// Work over asmap.dat.
    Asmap(AsmapWork),
    /// Calls on the tables.
    Calls(CallsWork),
    /// Work on an index.
    Index(IndexWork),
    /// A log is split into lines.
    Lines(LinesWork),
    /// Many nodes carry out a generated log.
    Nodes(NodesWork),
    /// Work over prefixes.txt.
    Table(TableWork),
    /// Work on messages of 1000 entries.
    Codecs(CodecsWork),
    /// A grid and an index of this many records are made and filled.
    Tables(u32),
}

/// Parses an argument as a number.
fn number(word: &String) -> Result<u64, Refusal> {
    word.as_str().parse::<u64>().map_err(|_| Refusal::Usage)
}

/// Parses an argument as a number of records, below 2^32.
fn records_of(word: &String) -> Result<u32, Refusal> {
    word.as_str().parse::<u32>().map_err(|_| Refusal::Usage)
}

/// Returns the kind of work on messages that an argument names.
fn codecs_kind(word: &String) -> Result<CodecsKind, Refusal> {
    match word.as_str() {
        "read-addr" => Ok(CodecsKind::ReadAddr),
        "read-addrv2" => Ok(CodecsKind::ReadAddrv2),
        "write-addr" => Ok(CodecsKind::WriteAddr),
        "write-addrv2" => Ok(CodecsKind::WriteAddrv2),
        "place" => Ok(CodecsKind::Place),
        _ => Err(Refusal::Usage),
    }
}

/// Returns the kind of call that an argument names.
fn calls_kind(word: &String) -> Result<CallsKind, Refusal> {
    match word.as_str() {
        "adds" => Ok(CallsKind::Adds),
        "messages" => Ok(CallsKind::Messages),
        "selects" => Ok(CallsKind::Selects),
        _ => Err(Refusal::Usage),
    }
}

impl Task {
    /// Returns the task that the arguments name: `asmap N`, `check N`, `calls KIND TIMES`,
    /// `codecs KIND TIMES`, `table N`, `matches N`, `compile TIMES`, `tables N`,
    /// `lines LENGTH TIMES`, `nodes N LINES`, `index-adds N TIMES`, `index-removes N TIMES`,
    /// `index-finds N SOME TIMES` or `index-turns N SOME TIMES`.
    pub fn of(words: &[String]) -> Result<Task, Refusal> {
        match words {
            [command, count] => Task::of_count(command.as_str(), count),
            [command, what, times] => Task::of_times(command.as_str(), what, times),
            [command, records, some, times] => {
                Task::of_some(command.as_str(), records, some, times)
            }
            _ => Err(Refusal::Usage),
        }
    }

    /// Returns the task of a command with one number.
    fn of_count(command: &str, count: &String) -> Result<Task, Refusal> {
        if command == "tables" {
            return Ok(Task::Tables(records_of(count)?));
        }
        let count = number(count)?;
        match command {
            "asmap" => Ok(Task::Asmap(AsmapWork::Lookups(count))),
            "check" => Ok(Task::Asmap(AsmapWork::Checks(count))),
            "table" => Ok(Task::Table(TableWork::Reads(count))),
            "matches" => Ok(Task::Table(TableWork::Matches(count))),
            "compile" => Ok(Task::Table(TableWork::Compiles(count))),
            _ => Err(Refusal::Usage),
        }
    }

    /// Returns the task of a command with a length, a kind, or a number of records or nodes, which
    /// is done that many times.
    fn of_times(command: &str, what: &String, times: &String) -> Result<Task, Refusal> {
        let times = number(times)?;
        if command == "codecs" {
            let kind = codecs_kind(what)?;
            return Ok(Task::Codecs(CodecsWork { kind, times }));
        }
        if command == "calls" {
            let kind = calls_kind(what)?;
            return Ok(Task::Calls(CallsWork { kind, times }));
        }
        let count = records_of(what)?;
        match command {
            "lines" => Ok(Task::Lines(LinesWork {
                length: count,
                times,
            })),
            "nodes" => Ok(Task::Nodes(NodesWork {
                nodes: count,
                lines: times,
            })),
            "index-adds" => Ok(Task::on_index(Kind::Adds, count, count, times)),
            "index-removes" => Ok(Task::on_index(Kind::Removes, count, count, times)),
            _ => Err(Refusal::Usage),
        }
    }

    /// Returns the task of a command over some of the records of an index.
    fn of_some(
        command: &str,
        records: &String,
        some: &String,
        times: &String,
    ) -> Result<Task, Refusal> {
        let kind = match command {
            "index-finds" => Kind::Finds,
            "index-turns" => Kind::Turns,
            _ => return Err(Refusal::Usage),
        };
        let (records, some) = (records_of(records)?, records_of(some)?);
        Ok(Task::on_index(kind, records, some, number(times)?))
    }

    /// Returns the word that is printed before the sum of the task.
    pub fn word(self) -> &'static str {
        match self {
            Task::Asmap(AsmapWork::Checks(_)) => "checked",
            _ => "sum",
        }
    }

    /// Makes a task of work on an index.
    fn on_index(kind: Kind, records: u32, some: u32, times: u64) -> Task {
        Task::Index(IndexWork {
            kind,
            records,
            some,
            times,
        })
    }
}
