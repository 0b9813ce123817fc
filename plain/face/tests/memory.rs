//! Each allocation of a node's calls fails in turn.

#![deny(unsafe_op_in_unsafe_fn)]

use addrman::{
    AddError, AddrMan, Address, AnswerError, Answers, Asmap, Bans, BansError, Chain, CompileError,
    DecompileError, EncodeError, Entry, Form, Limiter, LoadError, Memory, MessageError, Network,
    Networks, Peer, Request, SaveError, SelectError, decode, encode,
};
use rand_xoshiro::Xoshiro256PlusPlus;
use rand_xoshiro::rand_core::SeedableRng;
use std::alloc::{GlobalAlloc, Layout, System};
use std::cell::Cell;
use std::net::Ipv4Addr;
use std::path::Path;

thread_local! {
    /// How many allocations of the thread succeed until one fails; `None` for all.
    static LEFT: Cell<Option<usize>> = const { Cell::new(None) };
}

/// The system's allocator, which refuses what it is told to.
struct Failing;

fn refuses() -> bool {
    LEFT.with(|left| match left.get() {
        None => false,
        Some(0) => true,
        Some(count) => {
            left.set(Some(count - 1));
            false
        }
    })
}

// SAFETY: it is the system's allocator, or returns null.
unsafe impl GlobalAlloc for Failing {
    unsafe fn alloc(&self, layout: Layout) -> *mut u8 {
        if refuses() {
            return std::ptr::null_mut();
        }
        // SAFETY: the caller's.
        unsafe { System.alloc(layout) }
    }

    unsafe fn dealloc(&self, at: *mut u8, layout: Layout) {
        // SAFETY: the caller's.
        unsafe { System.dealloc(at, layout) }
    }

    unsafe fn realloc(&self, at: *mut u8, layout: Layout, size: usize) -> *mut u8 {
        if refuses() {
            return std::ptr::null_mut();
        }
        // SAFETY: the caller's.
        unsafe { System.realloc(at, layout, size) }
    }
}

#[global_allocator]
static ALLOCATOR: Failing = Failing;

/// Calls with fewer and fewer allocations refused, until none is. Returns how many it takes.
fn each<T>(mut call: impl FnMut() -> Result<T, ()>) -> usize {
    for count in 0.. {
        LEFT.with(|cell| cell.set(Some(count)));
        let result = call();
        let refused = LEFT.with(|cell| cell.replace(None)) == Some(0);
        match result {
            Ok(_) => return count,
            Err(()) => assert!(refused, "out of memory, and there was some"),
        }
    }
    unreachable!()
}

const NOW: u32 = 1_700_000_000;

fn entries(count: u32) -> Vec<Entry> {
    let peer = |number: u32| Peer::new(Ipv4Addr::from(0x0b00_0000 + number * 65_521), 8333);
    (0..count)
        .map(|number| Entry::new(peer(number), 1, NOW))
        .collect()
}

/// Makes the error that says that memory ran out `()`. There must be no other.
macro_rules! memory {
    ($result:expr, $pattern:pat) => {
        match $result {
            Ok(value) => Ok(value),
            Err($pattern) => Err(()),
            Err(error) => panic!("{error}"),
        }
    };
}

/// The same of a call that fails in no other way.
fn lacks<T>(result: Result<T, Memory>) -> Result<T, ()> {
    result.map_err(|Memory| ())
}

#[test]
fn each_call_says_that_memory_ran_out() {
    let source: Address = "1.2.3.4".parse().unwrap();
    let mut rng = Xoshiro256PlusPlus::seed_from_u64(1);
    let mut peers = AddrMan::new(&mut rng).unwrap();
    assert!(each(|| lacks(AddrMan::with_key([1; 32], None))) > 0);
    for entry in entries(200) {
        let mut before = peers.size().new_count;
        each(|| {
            assert_eq!(peers.size().new_count, before);
            let added = memory!(
                peers.add(&entry, source, 0, NOW, &mut rng),
                AddError::Memory(_)
            );
            before = peers.size().new_count;
            added
        });
    }
    let payload = encode(Form::Addrv2, &entries(300)).unwrap();
    let taken = each(|| {
        let taken = peers.take_message(Form::Addrv2, &payload, source, NOW, &mut rng);
        memory!(taken, MessageError::Memory(_))
    });
    assert!(taken > 0);
    let empty_handed = AddrMan::with_key([1; 32], None).unwrap();
    assert_eq!(
        empty_handed.select(false, Networks::ALL, NOW, &mut rng),
        Ok(None)
    );
    let mut one = AddrMan::with_key([1; 32], None).unwrap();
    one.add(&entries(1)[0], source, 0, NOW, &mut rng).unwrap();
    let select = || {
        memory!(
            one.select(false, Networks::ALL, NOW, &mut rng),
            SelectError::Memory(_)
        )
    };
    assert!(each(select) > 0);
    let mut sample = || peers.get_addr(None, None, Networks::ALL, NOW, &mut rng);
    assert!(each(|| lacks(sample())) > 0);
    let mut unfiltered = || peers.sample_unfiltered(None, None, Networks::ALL, &mut rng);
    assert!(each(|| lacks(unfiltered())) > 0);
    assert!(each(|| lacks(peers.entries())) > 0);
    assert!(
        each(|| memory!(
            encode(Form::Addr, &entries_of(&payload)),
            EncodeError::Memory(_)
        )) > 0
    );
    assert!(each(|| memory!(decode(Form::Addrv2, &payload), MessageError::Memory(_))) > 0);
}

/// The entries of a message, read with memory to spare.
fn entries_of(payload: &[u8]) -> Vec<Entry> {
    let left = LEFT.with(|cell| cell.replace(None));
    let entries = decode(Form::Addrv2, payload)
        .unwrap()
        .into_iter()
        .flatten()
        .collect();
    LEFT.with(|cell| cell.set(left));
    entries
}

#[test]
fn each_call_on_files_says_that_memory_ran_out() {
    let mut rng = Xoshiro256PlusPlus::seed_from_u64(2);
    let mut peers = AddrMan::new(&mut rng).unwrap();
    for entry in entries(200) {
        peers
            .add(&entry, Ipv4Addr::new(1, 2, 3, 4), 0, NOW, &mut rng)
            .unwrap();
    }
    assert!(each(|| lacks(peers.to_bytes(Chain::Main))) > 0);
    let bytes = peers.to_bytes(Chain::Main).unwrap();
    let read = || AddrMan::from_bytes(&bytes, Chain::Main, None);
    assert!(each(|| memory!(read(), LoadError::Memory(_))) > 0);
    let folder = std::env::temp_dir().join(format!("addrman-memory-{}", std::process::id()));
    std::fs::create_dir_all(&folder).unwrap();
    assert!(each(|| out_of_folder(peers.save(&folder, Chain::Main))) > 0);
    assert!(each(|| out_of_load(&folder)) > 0);
    assert_eq!(
        std::fs::read(folder.join("peers.dat")).unwrap().len(),
        bytes.len()
    );
    std::fs::remove_dir_all(&folder).unwrap();
}

/// Where the system's call finds no memory for the path, it is the call that failed.
fn out_of_folder(saved: Result<(), SaveError>) -> Result<(), ()> {
    match saved {
        Ok(()) => Ok(()),
        Err(SaveError::Memory(_)) => Err(()),
        Err(SaveError::Io(error)) if error.kind() == std::io::ErrorKind::OutOfMemory => Err(()),
        Err(error) => panic!("{error}"),
    }
}

fn out_of_load(folder: &Path) -> Result<(), ()> {
    match AddrMan::load(folder, Chain::Main, None) {
        Ok(found) => found.map(|_| ()).ok_or(()),
        Err(LoadError::Memory(_)) => Err(()),
        Err(LoadError::Io(error)) if error.kind() == std::io::ErrorKind::OutOfMemory => Err(()),
        Err(error) => panic!("{error}"),
    }
}

#[test]
fn each_call_on_answers_says_that_memory_ran_out() {
    let mut rng = Xoshiro256PlusPlus::seed_from_u64(3);
    let mut peers = AddrMan::new(&mut rng).unwrap();
    for entry in entries(200) {
        let source = Ipv4Addr::new(1, 2, 3, 4);
        peers.add(&entry, source, 0, NOW, &mut rng).unwrap();
    }
    let (mut answers, bans) = (Answers::new(), Bans::new());
    for socket in 0..3 {
        let request = Request::new(Network::Ipv4, socket, Form::Addrv2);
        let mut ask = || {
            let payload = answers.answer(&mut peers, &bans, &request, NOW, &mut rng);
            memory!(payload, AnswerError::Memory(_))
        };
        assert!(each(&mut ask) > 0);
        // An answer that is kept takes memory for its message only.
        assert!(each(&mut ask) > 0);
    }
}

#[test]
fn each_call_on_bans_and_limits_says_that_memory_ran_out() {
    let (mut bans, mut limiter) = (Bans::new(), Limiter::new());
    for number in 0..100u8 {
        let subnet = format!("{number}.0.0.0/8").parse().unwrap();
        each(|| lacks(bans.ban(&subnet, NOW, NOW + 9)));
        let address = Ipv4Addr::new(number, 1, 1, 1).into();
        each(|| lacks(limiter.open(number.into(), address, false, NOW)));
    }
    assert_eq!(bans.iter().len(), 100);
    assert!(each(|| lacks(bans.to_json())) > 0);
    let table = b"8.8.8.0/24 AS15169\n9.9.0.0/16 AS19281\n";
    assert!(each(|| memory!(Asmap::compile(table), CompileError::Memory(_))) > 0);
    let bytes = Asmap::compile(table).unwrap();
    let asmap = Asmap::new(&bytes).unwrap();
    assert!(each(|| memory!(asmap.decompile(), DecompileError::Memory(_))) > 0);
    let json = bans.to_json().unwrap();
    assert!(each(|| memory!(Bans::from_json(&json), BansError::Memory(_))) > 0);
    assert!(limiter.find(99).is_some());
    let folder = std::env::temp_dir().join(format!("addrman-memory-bans-{}", std::process::id()));
    std::fs::create_dir_all(&folder).unwrap();
    assert!(each(|| out_of_folder(bans.save(&folder))) > 0);
    let load = || match Bans::load(&folder) {
        Ok(found) => found.map(|_| ()).ok_or(()),
        Err(BansError::Memory(_)) => Err(()),
        Err(BansError::Io(error)) if error.kind() == std::io::ErrorKind::OutOfMemory => Err(()),
        Err(error) => panic!("{error}"),
    };
    assert!(each(load) > 0);
    assert_eq!(std::fs::read(folder.join("banlist.json")).unwrap(), json);
    std::fs::remove_dir_all(&folder).unwrap();
    let core = asmap.with_core_checksum();
    assert!(each(|| lacks(AddrMan::with_key([1; 32], Some(&core)))) > 0);
}
