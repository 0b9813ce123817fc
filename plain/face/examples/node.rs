//! A node's day: it starts, learns of peers, connects to some, answers another node, and stops.
//!
//!     cargo run --example node -- FOLDER

use addrman::{
    AddrMan, Answers, Bans, Chain, Entry, Form, Network, Networks, Opener, Peer, Request, Verdict,
    decode, encode,
};
use rand_xoshiro::Xoshiro256PlusPlus;
use rand_xoshiro::rand_core::{RngCore, SeedableRng};
use std::error::Error;
use std::net::Ipv4Addr;

/// A message of another node, with a thousand peers.
fn message(now: u32, rng: &mut impl RngCore) -> Result<Vec<u8>, Box<dyn Error>> {
    let mut some = || Ipv4Addr::from(rng.next_u32() % 0x6000_0000 + 0x1000_0000);
    let entries: Vec<_> = (0..1000)
        .map(|_| Entry::new(Peer::new(some(), 8333), 9, now))
        .collect();
    Ok(encode(Form::Addrv2, &entries)?)
}

/// Opens as many connections as a node has. Half of the peers answer.
fn connect(
    peers: &mut AddrMan,
    now: u32,
    rng: &mut impl RngCore,
) -> Result<Opener, Box<dyn Error>> {
    let mut opener = Opener::new();
    for tries in 1..=addrman::MAX_TRIES {
        if opener.len() == addrman::MAX_OUTBOUND {
            break;
        }
        let pick = match peers.select(false, Networks::ALL, now, rng)? { Some(pick) => pick, _ => {
            break;
        } };
        if opener.judge(peers, &pick, now, tries) != Verdict::Take {
            continue;
        }
        peers.attempt(&pick.peer, true, now);
        if rng.next_u32() % 2 == 0 {
            peers.good(&pick.peer, true, now);
            opener.opened(peers, &pick.peer)?;
        }
    }
    Ok(opener)
}

fn main() -> Result<(), Box<dyn Error>> {
    let folder = std::env::args().nth(1).ok_or("the folder is missing")?;
    // A node takes the system's generator and clock.
    let (mut rng, now) = (Xoshiro256PlusPlus::seed_from_u64(1), 1_700_000_000);
    let mut peers = match AddrMan::load(&folder, Chain::Main, None)? {
        Some(peers) => peers,
        None => AddrMan::new(&mut rng)?,
    };
    let bans = Bans::load(&folder)?.unwrap_or_default();
    let payload = message(now, &mut rng)?;
    let source = Ipv4Addr::new(1, 2, 3, 4);
    let added = peers.take_message(Form::Addrv2, &payload, source, now, &mut rng)?;
    println!("{} of {} peers got a slot", added.accepted, added.total);
    let opener = connect(&mut peers, now, &mut rng)?;
    println!("{} connections", opener.len());
    peers.resolve_collisions(now);
    let mut answers = Answers::new();
    let request = Request::new(Network::Ipv4, 0, Form::Addrv2);
    let answer = answers.answer(&mut peers, &bans, &request, now, &mut rng)?;
    let told = decode(Form::Addrv2, &answer)?.len();
    println!("{told} peers for another node");
    peers.save(&folder, Chain::Main)?;
    bans.save(&folder)?;
    let size = AddrMan::load(&folder, Chain::Main, None)?
        .ok_or("no file")?
        .size();
    println!(
        "saved {} new and {} tried peers",
        size.new_count, size.tried_count
    );
    Ok(())
}
