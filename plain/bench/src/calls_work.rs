use crate::refusal::Refusal;
use addr_codecs::Form;
use c_handles::Keyed;
use net_addr::{Entry, NetAddr, NetSet, Peer};
use picking::Picked;
use placing::Placer;
use plain_std::alloc::Global;
use plain_std::vec::Vec;
use tables::Tables;

/// When everything happens, in seconds since 1970.
const NOW: u32 = 1_700_000_000;

/// How many peers the tables have before peers are selected.
const PEERS: u64 = 20_000;

/// How many random words a call is given.
const WORDS: usize = 1000;

/// A kind of call.
#[derive(Clone, Copy, PartialEq, Eq)]
pub(crate) enum Kind {
    /// A peer is added.
    Adds,
    /// A message of 1000 entries is taken.
    Messages,
    /// A peer is selected among 20,000.
    Selects,
}

/// Calls on the tables, and how many.
#[derive(Clone, Copy)]
pub(crate) struct CallsWork {
    pub kind: Kind,
    pub times: u64,
}

/// The bytes of the IPv4 address of an index.
fn octets(index: u64) -> [u8; 4] {
    [
        (20 + index % 64) as u8,
        (index / 64 % 256) as u8,
        (index / 16_384 % 256) as u8,
        1,
    ]
}

/// The address of whoever announces the peer of an index: one for a thousand peers.
fn source(index: u64) -> NetAddr {
    NetAddr::ipv4(octets(index / 1000 * 65))
}

/// Adds the peer of an index. Returns 1 if it got a slot.
fn add_one(tables: &mut Tables<'_, Keyed>, index: u64) -> Result<u64, Refusal> {
    if tables.next_number() >= 1 << 62 {
        return Err(Refusal::NotAdded);
    }
    let entry = Entry {
        time: NOW,
        services: 1,
        peer: Peer {
            addr: NetAddr::ipv4(octets(index)),
            port: 8333,
        },
    };
    match node_calls::add(tables, &entry, &source(index), 7200, index, NOW) {
        Ok(true) => Ok(1),
        Ok(false) => Ok(0),
        Err(_) => Err(Refusal::NoMemory),
    }
}

/// Makes an `addr` message of the thousand peers from an index on.
fn message(alloc: Global, first: u64) -> Result<Vec<u8>, Refusal> {
    let mut out = Vec::new(alloc);
    let start = [0xfd, 0xe8, 0x03];
    out.extend_from_slice(&start)
        .map_err(|_| Refusal::NoMemory)?;
    for i in 0..1000 {
        let [a, b, c, d] = octets(first.wrapping_add(i));
        let entry = [
            0x00, 0xf1, 0x53, 0x65, 1, 0, 0, 0, 0, 0, 0, 0, 0, 0, 0, 0, 0, 0, 0, 0, 0, 0, 0xff,
            0xff, a, b, c, d, 0x20, 0x8d,
        ];
        out.extend_from_slice(&entry)
            .map_err(|_| Refusal::NoMemory)?;
    }
    Ok(out)
}

/// Takes a message of the thousand peers from an index on. Returns how many got a slot.
fn take_one(
    alloc: Global,
    tables: &mut Tables<'_, Keyed>,
    first: u64,
    words: &[u64],
) -> Result<u64, Refusal> {
    if tables.next_number() >= 1 << 62 {
        return Err(Refusal::NotAdded);
    }
    let payload = message(alloc, first)?;
    match node_calls::take_message(
        alloc,
        tables,
        Form::Addr,
        payload.as_slice(),
        &source(first),
        words,
        NOW,
    ) {
        Ok(taken) => Ok(u64::from(taken.accepted)),
        Err(_) => Err(Refusal::NoMemory),
    }
}

/// Returns the set of all networks. It depends on a word, so that the compiler does not know it, as
/// it does not know a set that comes from C.
fn nets_by(words: &[u64]) -> NetSet {
    if !words.is_empty() && words[0] == 0 {
        NetSet::none()
    } else {
        NetSet::all()
    }
}

/// Selects a peer of these networks by 300 of the words. Returns a number that depends on each byte
/// of its address, so that no compiler leaves the call out.
fn select_one(tables: &Tables<'_, Keyed>, nets: NetSet, index: u64, words: &[u64]) -> u64 {
    let from = (index % 512) as usize;
    if words.len() < from + 300 {
        return 0;
    }
    let some = &words[from..from + 300];
    match node_calls::select(tables, false, nets, some, NOW) {
        Picked::One(peer, _) => {
            let mut sum: u64 = 0;
            for byte in peer.addr.bytes() {
                sum = sum.wrapping_mul(7).wrapping_add(u64::from(*byte));
            }
            sum
        }
        Picked::Nothing | Picked::Exhausted => 1,
    }
}

/// Makes random words, by a linear congruence modulo 2^64.
fn words_of(alloc: Global) -> Result<Vec<u64>, Refusal> {
    let mut word: u64 = 1;
    let mut words = Vec::new(alloc);
    for _ in 0..WORDS {
        word = word
            .wrapping_mul(6_364_136_223_846_793_005)
            .wrapping_add(1_442_695_040_888_963_407);
        words.push(word).map_err(|_| Refusal::NoMemory)?;
    }
    Ok(words)
}

impl CallsWork {
    /// Does the calls on new tables, and gives a sum of what they answered.
    pub fn run(self, alloc: Global) -> Result<u64, Refusal> {
        let placer = Placer::make([7; 32], None);
        match Tables::open(alloc, placer, Keyed::of(&[1, 2])) {
            Ok(mut tables) => self.run_on(alloc, &mut tables),
            Err(_) => Err(Refusal::NoMemory),
        }
    }

    /// Does the calls.
    fn run_on(self, alloc: Global, tables: &mut Tables<'_, Keyed>) -> Result<u64, Refusal> {
        let words = words_of(alloc)?;
        let nets = nets_by(words.as_slice());
        let mut sum: u64 = 0;
        if let Kind::Selects = self.kind {
            for index in 0..PEERS {
                add_one(tables, index)?;
            }
        }
        for index in 0..self.times {
            let more = match self.kind {
                Kind::Adds => add_one(tables, index)?,
                Kind::Messages => {
                    take_one(alloc, tables, index.wrapping_mul(1000), words.as_slice())?
                }
                Kind::Selects => select_one(tables, nets, index, words.as_slice()),
            };
            sum = sum.wrapping_add(more);
        }
        Ok(sum)
    }
}
