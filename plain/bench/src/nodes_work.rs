use crate::refusal::Refusal;
use c_handles::Keyed;
use gen_load::{Gen, MAX_LINES};
use host_io::SureFolder;
use log_lines::split_line;
use manager::Manager;
use peers_file::Chain;
use placing::Placer;
use plain_std::alloc::Global;
use plain_std::vec::Vec;
use session::Session;
use tables::Tables;

/// The tables of a node and its clock.
type Node = Session<'static, Keyed>;

/// Many nodes in one process, each with tables and a key of its own, and how many lines of
/// generated logs each of them carries out.
#[derive(Clone, Copy)]
pub(crate) struct NodesWork {
    pub nodes: u32,
    pub lines: u64,
}

/// Makes a node with empty tables, and its key of its number.
fn node(alloc: Global, number: u32) -> Result<Node, Refusal> {
    let mut key = [7; 32];
    key[..4].copy_from_slice(&number.to_le_bytes());
    match Tables::open(alloc, Placer::make(key, None), Keyed::of(&[1, 2])) {
        Ok(tables) => Ok(Session::make(Manager::open(tables), Chain::Main)),
        Err(_) => Err(Refusal::NoMemory),
    }
}

/// Has all nodes carry out a line. Returns how many bytes their replies have.
fn carry_out(
    alloc: Global,
    nodes: &mut Vec<Node>,
    line: &[u8],
    reply: &mut Vec<u8>,
) -> Result<u64, Refusal> {
    let mut sum: u64 = 0;
    for node in nodes.iter_mut() {
        reply.clear();
        node.line(alloc, line, &mut SureFolder::make(), reply)
            .map_err(|_| Refusal::NoMemory)?;
        sum = sum.wrapping_add(reply.len() as u64);
    }
    Ok(sum)
}

impl NodesWork {
    /// Has all nodes carry out each line before the next one. Returns how many bytes their replies
    /// have.
    pub fn run(self, alloc: Global) -> Result<u64, Refusal> {
        let mut nodes = Vec::new(alloc);
        for number in 0..self.nodes {
            let node = node(alloc, number)?;
            nodes.push(node).map_err(|_| Refusal::NoMemory)?;
        }
        let (mut line, mut reply) = (Vec::new(alloc), Vec::new(alloc));
        let (mut seed, mut log) = (1, Gen::make(1, MAX_LINES));
        let mut sum: u64 = 0;
        for _ in 0..self.lines {
            line.clear();
            if !log.next(&mut line).map_err(|_| Refusal::NoMemory)? {
                seed += 1;
                log = Gen::make(seed, MAX_LINES);
                log.next(&mut line).map_err(|_| Refusal::NoMemory)?;
            }
            let (text, _) = split_line(line.as_slice());
            sum = sum.wrapping_add(carry_out(alloc, &mut nodes, text, &mut reply)?);
        }
        Ok(sum)
    }
}
