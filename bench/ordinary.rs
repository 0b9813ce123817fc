//! An ordinary Rust program that does what the proved one does, to measure the proved one beside it.
//!
//! It has the commands `replay`, `limit`, `show`, `compile`, `decompile`, `check`, `banned`, `gen` and `trial`, with the
//! same files, the same output and the crates that the proved program has ports of. What is malformed ends it.

use std::fs::File;
use std::io::{self, BufReader, BufWriter, Write};
use std::mem::ManuallyDrop;
use std::os::fd::FromRawFd;
use std::process::ExitCode;

use sha2::{Digest, Sha256};

#[path = "ordinary/address.rs"]
mod address;
#[path = "ordinary/asmap.rs"]
mod asmap;
#[path = "ordinary/bans.rs"]
mod bans;
#[path = "ordinary/generator.rs"]
mod generator;
#[path = "ordinary/limit.rs"]
mod limit;
#[path = "ordinary/log.rs"]
mod log;
#[path = "ordinary/message.rs"]
mod message;
#[path = "ordinary/peers.rs"]
mod peers;
#[path = "ordinary/places.rs"]
mod places;
#[path = "ordinary/tables.rs"]
mod tables;
#[path = "ordinary/text.rs"]
mod text;

const PIECE: usize = 65_536;

pub enum Fault {
    Usage,
    Refused,
    System,
}

impl From<io::Error> for Fault {
    fn from(_: io::Error) -> Fault {
        Fault::System
    }
}

/// Descriptor 1, without a buffer: a reply is out before the next line is taken.
fn output() -> ManuallyDrop<File> {
    ManuallyDrop::new(unsafe { File::from_raw_fd(1) })
}

fn asmap() -> Result<Option<asmap::Asmap>, Fault> {
    peers::load("asmap.dat", u64::MAX)?.map(asmap::Asmap::checked).transpose()
}

fn opened(key: Option<&str>) -> Result<tables::Tables, Fault> {
    let asmap = asmap()?;
    match (peers::PeersFile::load()?, key) {
        (Some(file), _) => {
            let key = file.key;
            file.restore(places::Places { key, asmap })
        }
        (None, Some(digits)) => {
            let mut key = [0; 32];
            hex::decode_to_slice(digits, &mut key).map_err(|_| Fault::Usage)?;
            Ok(tables::Tables::new(places::Places { key, asmap }))
        }
        (None, None) => Err(Fault::Refused),
    }
}

fn replay(key: Option<&str>) -> Result<(), Fault> {
    let mut log = log::Log::new(opened(key)?);
    let mut input = BufReader::with_capacity(PIECE, io::stdin().lock());
    log::each_line(&mut input, &mut *output(), |line, out| {
        if line.is_empty() || line[0] == b'#' {
            return Some(());
        }
        log.reply(line, out)
    })
}

fn limited() -> Result<(), Fault> {
    let mut limit = limit::Limit::default();
    let mut input = BufReader::with_capacity(PIECE, io::stdin().lock());
    log::each_line(&mut input, &mut *output(), |line, out| limit.output(line, out))
}

fn numbers(start: &str, lines: &str) -> Result<(u64, u64), Fault> {
    let start = text::number(start.as_bytes(), u64::MAX).ok_or(Fault::Usage)?;
    let lines = text::number(lines.as_bytes(), 100_000).ok_or(Fault::Usage)?;
    Ok((start, lines))
}

fn generated(start: u64, lines: u64) -> Result<(), Fault> {
    let mut generator = generator::Generator::new(start);
    let mut piece = Vec::with_capacity(2 * PIECE);
    for _ in 0..lines {
        generator.put_line(&mut piece);
        if piece.len() >= PIECE {
            output().write_all(&piece)?;
            piece.clear();
        }
    }
    Ok(output().write_all(&piece)?)
}

fn trial(start: u64, lines: u64) -> Result<(), Fault> {
    let places = places::Places { key: [0; 32], asmap: None };
    let mut log = log::Log::new(tables::Tables::new(places));
    let mut generator = generator::Generator::new(start);
    let (mut line, mut reply) = (Vec::new(), Vec::new());
    let (mut hasher, mut bytes) = (Sha256::new(), 0);
    for _ in 0..lines {
        line.clear();
        reply.clear();
        generator.put_line(&mut line);
        line.pop();
        log.reply(&line, &mut reply).ok_or(Fault::Refused)?;
        hasher.update(&reply);
        bytes += reply.len();
    }
    let (new, tried) = log.tables.counts();
    let clashes = log.tables.collisions.len();
    let sum = hex::encode(hasher.finalize());
    let summary = format!("trial lines {lines} replies {bytes} new {new} tried {tried} clashes {clashes} sum {sum}\n");
    Ok(output().write_all(summary.as_bytes())?)
}

fn compile() -> Result<(), Fault> {
    let text = peers::load("prefixes.txt", 134_217_728)?.ok_or(Fault::Refused)?;
    let mut rows = asmap::read_rows(&text)?;
    drop(text);
    let count = rows.len();
    let (bits, bytes) = asmap::compile(&mut rows)?;
    peers::replace("asmap.tmp", "asmap.dat", &bytes)?;
    let line = format!("compiled {count} rows {bits} bits {} bytes\n", bytes.len());
    Ok(output().write_all(line.as_bytes())?)
}

fn run(arguments: &[&str]) -> Result<(), Fault> {
    let buffered = || BufWriter::with_capacity(PIECE, output().try_clone().expect("descriptor 1 is open"));
    match arguments {
        ["replay"] => replay(None),
        ["replay", "--key", key] => replay(Some(key)),
        ["limit"] => limited(),
        ["show"] => {
            let mut out = buffered();
            peers::PeersFile::load()?.ok_or(Fault::Refused)?.show(&mut out)?;
            Ok(out.flush()?)
        }
        ["compile"] => compile(),
        ["decompile"] => {
            let mut out = buffered();
            asmap()?.ok_or(Fault::Refused)?.decompile(&mut out)?;
            Ok(out.flush()?)
        }
        ["check"] => {
            let line = format!("sane {} bytes\n", asmap()?.ok_or(Fault::Refused)?.0.len());
            Ok(output().write_all(line.as_bytes())?)
        }
        ["banned", peer, now] => {
            let mut line = Vec::new();
            bans::banned(peer, now, &mut line)?;
            Ok(output().write_all(&line)?)
        }
        ["gen", start, lines] => {
            let (start, lines) = numbers(start, lines)?;
            generated(start, lines)
        }
        ["trial", start, lines] => {
            let (start, lines) = numbers(start, lines)?;
            trial(start, lines)
        }
        _ => Err(Fault::Usage),
    }
}

fn main() -> ExitCode {
    let arguments: Vec<String> = std::env::args().skip(1).collect();
    let arguments: Vec<&str> = arguments.iter().map(String::as_str).collect();
    match run(&arguments) {
        Ok(()) => ExitCode::SUCCESS,
        Err(Fault::Usage) => ExitCode::from(2),
        Err(Fault::Refused) => ExitCode::from(3),
        Err(Fault::System) => ExitCode::from(9),
    }
}
