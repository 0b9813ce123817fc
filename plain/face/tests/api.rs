//! What a node does with the crate.

use addrman::{
    AddrMan, Address, AnswerError, Answers, Asmap, BanFault, Bans, BansError, Chain, Entry, Form,
    Good, Limiter, LoadError, Network, Networks, Opener, Peer, Request, SaveError, Verdict, decode,
    encode,
};
use rand_xoshiro::Xoshiro256PlusPlus;
use rand_xoshiro::rand_core::SeedableRng;
use std::error::Error;
use std::net::{IpAddr, Ipv4Addr, SocketAddr};
use std::path::PathBuf;
use std::sync::{Arc, RwLock};

const NOW: u32 = 1_700_000_000;

fn rng(seed: u64) -> Xoshiro256PlusPlus {
    Xoshiro256PlusPlus::seed_from_u64(seed)
}

fn peer(number: u32) -> Peer {
    Peer::new(Ipv4Addr::from(0x0b00_0000 + number * 65_521), 8333)
}

/// Tables that have learned of many peers, of which each seventh was reached.
fn many(count: u32) -> AddrMan {
    let mut rng = rng(1);
    let mut peers = AddrMan::new(&mut rng).unwrap();
    for number in 0..count {
        let source = IpAddr::from(Ipv4Addr::from(0x0c00_0001 + (number % 200) * 65_536));
        let entry = Entry::new(peer(number), 1, NOW - number % 5000);
        peers.add(&entry, source, 7200, NOW, &mut rng).unwrap();
        if number % 7 == 0 {
            peers.good(&peer(number), true, NOW);
        }
    }
    peers
}

/// An empty folder.
fn folder(name: &str) -> PathBuf {
    let path = std::env::temp_dir().join(format!("addrman-{}-{name}", std::process::id()));
    let _ = std::fs::remove_dir_all(&path);
    std::fs::create_dir_all(&path).unwrap();
    path
}

#[test]
fn values_go_to_other_threads() {
    fn is<T: Send + Sync + 'static>() {}
    is::<AddrMan>();
    is::<Answers>();
    is::<Asmap<'static>>();
    is::<Bans>();
    is::<Limiter>();
    is::<Opener>();
    is::<addrman::Ban>();
    is::<addrman::Connection>();
    is::<addrman::Record>();
    is::<addrman::Subnet>();
    is::<Entry>();
    is::<Networks>();
    is::<Peer>();
    is::<Request>();
}

#[test]
fn errors_are_those_of_std() {
    fn is_error<T: Error + Send + Sync + 'static>() {}
    is_error::<addrman::AddError>();
    is_error::<addrman::AdmitError>();
    is_error::<addrman::AnchorsError>();
    is_error::<AnswerError>();
    is_error::<addrman::AsmapError>();
    is_error::<BansError>();
    is_error::<addrman::CompileError>();
    is_error::<addrman::DecompileError>();
    is_error::<addrman::EncodeError>();
    is_error::<LoadError>();
    is_error::<addrman::Memory>();
    is_error::<addrman::MessageError>();
    is_error::<addrman::NoSocket>();
    is_error::<addrman::OpenedError>();
    is_error::<addrman::ParseError>();
    is_error::<SaveError>();
    is_error::<addrman::SelectError>();
}

#[test]
fn errors_that_no_row_shows_have_texts() {
    let texts = [
        addrman::TableFault::Memory.to_string(),
        addrman::BanFault::Memory.to_string(),
        addrman::FileFault::Memory.to_string(),
    ];
    assert_eq!(texts, ["out of memory"; 3]);
    assert_eq!(addrman::TableFault::TooMany.to_string(), "too-many");
}

#[test]
fn many_threads_select_at_once() {
    let peers = many(20_000);
    let (new, tried) = peers.size_of(Networks::ALL);
    assert_eq!(
        (new, tried),
        (peers.size().new_count, peers.size().tried_count)
    );
    assert_eq!(peers.entries().unwrap().len(), (new + tried) as usize);
    assert!(tried > 0);
    assert_eq!(
        peers.select(false, Networks::ONION, NOW, &mut rng(2)),
        Ok(None)
    );
    let shared = Arc::new(RwLock::new(peers));
    let threads: Vec<_> = (0..4)
        .map(|seed| {
            let shared = shared.clone();
            std::thread::spawn(move || {
                let mut rng = rng(seed);
                let mut select = || {
                    let peers = shared.read().unwrap();
                    peers.select(false, Networks::ALL, NOW, &mut rng).unwrap()
                };
                (0..2000).filter(|_| select().is_some()).count()
            })
        })
        .collect();
    for thread in threads {
        assert_eq!(thread.join().unwrap(), 2000);
    }
}

/// With one record in 65,536 slots most searches take more words than the first piece has.
#[test]
fn a_search_goes_on_until_it_finds_the_only_record() {
    let peers = many(1);
    assert_eq!(peers.size().tried_count, 1);
    let mut rng = rng(3);
    for _ in 0..100 {
        let pick = peers
            .select(false, Networks::IPV4, NOW, &mut rng)
            .unwrap()
            .unwrap();
        assert_eq!(pick.peer, peer(0));
        assert_eq!(pick.last_try, peers.find(&peer(0)).unwrap().last_try);
    }
}

#[test]
fn a_sample_has_no_more_than_its_limits() {
    let mut peers = many(3000);
    let size = peers.size();
    let all = size.new_count + size.tried_count;
    let mut rng = rng(4);
    let mut sample = |max, percent| {
        peers
            .get_addr(max, percent, Networks::ALL, NOW, &mut rng)
            .unwrap()
            .len()
    };
    assert_eq!(sample(Some(0), None), 0);
    assert_eq!(sample(Some(10), None), 10);
    assert_eq!(sample(None, Some(10)), (all / 10) as usize);
    assert_eq!(sample(None, Some(1000)), sample(None, None));
}

#[test]
fn an_unfiltered_sample_has_terrible_records_too() {
    let mut peers = many(3000);
    let size = peers.size();
    let all = (size.new_count + size.tried_count) as usize;
    let (mut rng, late) = (rng(5), NOW + 40 * 86_400);
    let told = peers.get_addr(None, None, Networks::ALL, late, &mut rng);
    assert_eq!(told.unwrap().len(), 0);
    let mut sample = |max, percent, networks| {
        peers
            .sample_unfiltered(max, percent, networks, &mut rng)
            .unwrap()
    };
    let mut records = sample(None, None, Networks::ALL);
    assert_ne!(records, peers.entries().unwrap());
    records.sort_by_key(|record| record.number);
    assert_eq!(records, peers.entries().unwrap());
    assert_eq!(sample(Some(10), None, Networks::ALL).len(), 10);
    assert_eq!(sample(Some(0), None, Networks::ALL).len(), 0);
    assert_eq!(sample(None, Some(10), Networks::ALL).len(), all / 10);
    assert_eq!(sample(None, None, Networks::CJDNS).len(), 0);
}

#[test]
fn a_file_is_read_as_the_same_tables() {
    let peers = many(3000);
    let bytes = peers.to_bytes(Chain::Main).unwrap();
    let back = AddrMan::from_bytes(&bytes, Chain::Main, None).unwrap();
    let size = |peers: &AddrMan| (peers.size().new_count, peers.size().tried_count);
    assert_eq!(size(&back), size(&peers));
    for record in back.entries().unwrap() {
        let known = peers.find(&record.peer).unwrap();
        assert_eq!((known.source, known.time), (record.source, record.time));
    }
    for cut in [0, 1, 40, bytes.len() - 1] {
        let read = AddrMan::from_bytes(&bytes[..cut], Chain::Main, None);
        assert!(matches!(read, Err(LoadError::File(_))));
    }
}

#[test]
fn a_folder_keeps_the_tables() {
    let (peers, folder) = (many(100), folder("keeps"));
    assert!(AddrMan::load(&folder, Chain::Main, None).unwrap().is_none());
    peers.save(&folder, Chain::Main).unwrap();
    let back = AddrMan::load(&folder, Chain::Main, None).unwrap().unwrap();
    assert_eq!(
        back.entries().unwrap().len(),
        peers.entries().unwrap().len()
    );
    // A second save replaces the file, and leaves no other.
    back.save(&folder, Chain::Main).unwrap();
    let names: Vec<_> = std::fs::read_dir(&folder)
        .unwrap()
        .map(|entry| entry.unwrap().file_name())
        .collect();
    assert_eq!(names, ["peers.dat"]);
    let read = AddrMan::load(&folder, Chain::Regtest, None);
    assert!(matches!(read, Err(LoadError::File(_))));
    std::fs::remove_dir_all(&folder).unwrap();
    assert!(matches!(
        peers.save(&folder, Chain::Main),
        Err(SaveError::Io(_))
    ));
    let missing = |error: &std::io::Error| error.kind() == std::io::ErrorKind::NotFound;
    let read = AddrMan::load(&folder, Chain::Main, None);
    assert!(matches!(read, Err(LoadError::Folder(error)) if missing(&error)));
}

#[cfg(unix)]
#[test]
fn a_folder_in_use_is_not_saved_in() {
    use std::os::unix::fs::PermissionsExt;

    extern "C" {
        fn flock(fd: std::os::raw::c_int, operation: std::os::raw::c_int) -> std::os::raw::c_int;
    }

    let (peers, folder) = (many(10), folder("in-use"));
    peers.save(&folder, Chain::Main).unwrap();
    let mode = std::fs::metadata(folder.join("peers.dat"))
        .unwrap()
        .permissions()
        .mode();
    assert_eq!(mode & 0o777, 0o600);
    let lock = std::fs::File::open(&folder).unwrap();
    assert_eq!(unsafe { flock(std::os::unix::io::AsRawFd::as_raw_fd(&lock), 2 | 4) }, 0);
    assert!(matches!(
        peers.save(&folder, Chain::Main),
        Err(SaveError::InUse)
    ));
    drop(lock);
    peers.save(&folder, Chain::Main).unwrap();
    // What is no file is not read.
    std::fs::remove_file(folder.join("peers.dat")).unwrap();
    std::fs::create_dir(folder.join("peers.dat")).unwrap();
    let read = AddrMan::load(&folder, Chain::Main, None);
    assert!(matches!(read, Err(LoadError::Io(_))));
    std::fs::remove_dir_all(&folder).unwrap();
}

#[test]
fn a_folder_keeps_the_bans() {
    let folder = folder("bans");
    assert!(Bans::load(&folder).unwrap().is_none());
    let mut bans = Bans::new();
    for text in ["10.0.0.0/8", "2001:db8::/32"] {
        bans.ban(&text.parse().unwrap(), NOW, NOW + 9).unwrap();
    }
    bans.save(&folder).unwrap();
    bans.save(&folder).unwrap();
    let file = folder.join("banlist.json");
    assert_eq!(std::fs::read(&file).unwrap(), bans.to_json().unwrap());
    assert_eq!(std::fs::read_dir(&folder).unwrap().count(), 1);
    let back = Bans::load(&folder).unwrap().unwrap();
    assert!(back.iter().eq(bans.iter()));
    for (text, fault) in [
        ("", BanFault::Json),
        ("{}", BanFault::Form),
        ("[", BanFault::Json),
    ] {
        std::fs::write(&file, text).unwrap();
        let read = Bans::load(&folder);
        assert!(matches!(read, Err(BansError::File(found)) if found == fault));
    }
    let size = 33_554_433;
    std::fs::File::create(&file).unwrap().set_len(size).unwrap();
    let read = Bans::load(&folder);
    assert!(matches!(read, Err(BansError::File(BanFault::TooLarge { size: found })) if found == size));
    std::fs::remove_file(&file).unwrap();
    std::fs::create_dir(&file).unwrap();
    assert!(matches!(Bans::load(&folder), Err(BansError::Io(_))));
    assert!(matches!(bans.save(&folder), Err(SaveError::Io(_))));
    std::fs::remove_dir_all(&folder).unwrap();
    assert!(matches!(bans.save(&folder), Err(SaveError::Io(_))));
    let missing = |error: &std::io::Error| error.kind() == std::io::ErrorKind::NotFound;
    assert!(matches!(Bans::load(&folder), Err(BansError::Folder(error)) if missing(&error)));
}

/// The asmap of Bitcoin Core's own tests, whose checksum its functional test feature_asmap.py
/// states, the last byte first.
const CORE_ASMAP: &str = "fb03ec0fb03fc0fe00fb03ec0fb03fc0fe00fb03ec0fb0fffffeffedb0ffd486e628\
    290000400000400040990100800180040000050006001cf039";
const CORE_SUM: &str = "fec61fa21a9f46f3b17bdcd660d7f4cd90b966aad3aec593c99b35f0aca15853";

/// The bytes of hexadecimal digits.
fn bytes_of(digits: &str) -> Vec<u8> {
    let byte = |at| u8::from_str_radix(&digits[at..at + 2], 16).unwrap();
    (0..digits.len()).step_by(2).map(byte).collect()
}

/// The checksum of the asmap in a file: it comes before that of the file.
fn sum_in(file: &[u8]) -> &[u8] {
    &file[file.len() - 64..file.len() - 32]
}

#[test]
fn a_file_has_the_checksum_of_its_asmap() {
    let bytes = bytes_of(CORE_ASMAP);
    let ours = Asmap::new(&bytes).unwrap();
    let core = ours.with_core_checksum();
    let mut sum = bytes_of(CORE_SUM);
    sum.reverse();
    assert_eq!(core.checksum().to_vec(), sum);
    let mut rng = rng(7);
    for asmap in [ours, core] {
        let mut peers = AddrMan::with_key([7; 32], Some(&asmap)).unwrap();
        for number in 0..500 {
            let source = Ipv4Addr::from(0x0c00_0001 + number * 65_536);
            let entry = Entry::new(peer(number), 1, NOW);
            peers.add(&entry, source, 0, NOW, &mut rng).unwrap();
        }
        let file = peers.to_bytes(Chain::Main).unwrap();
        assert_eq!(sum_in(&file), asmap.checksum());
        // By its own checksum the tables are as they were.
        let back = AddrMan::from_bytes(&file, Chain::Main, Some(&asmap)).unwrap();
        assert_eq!(back.to_bytes(Chain::Main).unwrap(), file);
        let folder = folder("sum");
        peers.save(&folder, Chain::Main).unwrap();
        assert_eq!(std::fs::read(folder.join("peers.dat")).unwrap(), file);
        let back = AddrMan::load(&folder, Chain::Main, Some(&asmap)).unwrap();
        assert_eq!(back.unwrap().to_bytes(Chain::Main).unwrap(), file);
        std::fs::remove_dir_all(&folder).unwrap();
    }
    // By the other one the file says another asmap.
    let peers = AddrMan::with_key([7; 32], Some(&core)).unwrap();
    let file = peers.to_bytes(Chain::Main).unwrap();
    let read = AddrMan::from_bytes(&file, Chain::Main, Some(&ours)).unwrap();
    assert_ne!(read.to_bytes(Chain::Main).unwrap(), file);
    assert_eq!(sum_in(&read.to_bytes(Chain::Main).unwrap()), ours.checksum());
    let none = AddrMan::with_key([7; 32], None).unwrap();
    assert_eq!(sum_in(&none.to_bytes(Chain::Main).unwrap()), [0; 32]);
}

#[test]
fn all_that_ask_get_one_answer_for_21_hours() {
    let (mut peers, mut rng) = (many(3000), rng(8));
    let (mut answers, mut bans) = (Answers::new(), Bans::new());
    let request = Request::new(Network::Ipv4, 0, Form::Addrv2);
    let mut ask = |peers: &mut AddrMan, bans: &Bans, request: &Request, now| {
        answers.answer(peers, bans, request, now, &mut rng)
    };
    let first = ask(&mut peers, &bans, &request, NOW).unwrap();
    let entries: Vec<_> = decode(Form::Addrv2, &first).unwrap().into_iter().flatten().collect();
    let size = peers.size();
    let most = (size.new_count + size.tried_count) as usize * 23 / 100;
    assert!(!entries.is_empty() && entries.len() <= most);
    // One time hides those of the records.
    assert!(entries.iter().all(|entry| entry.time == entries[0].time));
    let age = NOW - entries[0].time;
    assert!((8 * 86_400..=12 * 86_400).contains(&age));
    // Whatever changes, the answer stays.
    bans.ban(&"0.0.0.0/3".parse().unwrap(), NOW, NOW + 200_000).unwrap();
    let again = ask(&mut peers, &bans, &request, NOW + 75_599);
    assert!(matches!(again, Ok(payload) if payload == first));
    let old = Request::new(Network::Ipv4, 0, Form::Addr);
    let old = ask(&mut peers, &bans, &old, NOW + 1).unwrap();
    assert_eq!(decode(Form::Addr, &old).unwrap().len(), entries.len());
    // After 27 hours there is a new one, without the banned peers, which are all.
    assert!(matches!(ask(&mut peers, &bans, &request, NOW + 97_200), Ok(payload) if payload == [0]));
    // Others get an answer of their own, and trusted ones the times of the records.
    bans = Bans::new();
    let trusted = Request {
        own_times: true,
        ..Request::new(Network::Ipv4, 1, Form::Addrv2)
    };
    let own = ask(&mut peers, &bans, &trusted, NOW).unwrap();
    for entry in decode(Form::Addrv2, &own).unwrap().into_iter().flatten() {
        assert_eq!(entry.time, peers.find(&entry.peer).unwrap().time);
    }
    for socket in 2..64 {
        let request = Request::new(Network::Onion, socket, Form::Addrv2);
        assert!(ask(&mut peers, &bans, &request, NOW).is_ok());
    }
    let more = Request::new(Network::Onion, 64, Form::Addrv2);
    assert!(matches!(ask(&mut peers, &bans, &more, NOW), Err(AnswerError::NoRoom)));
    answers.forget();
    assert!(answers.answer(&mut peers, &bans, &more, NOW, &mut rng).is_ok());
}

#[test]
fn a_message_is_taken_as_its_entries() {
    let mut rng = rng(5);
    let mut peers = AddrMan::new(&mut rng).unwrap();
    let entries: Vec<_> = (0..1000)
        .map(|number| Entry::new(peer(number), 9, NOW))
        .collect();
    for form in [Form::Addr, Form::Addrv2] {
        let payload = encode(form, &entries).unwrap();
        let read = decode(form, &payload).unwrap();
        assert!(read.into_iter().eq(entries.iter().copied().map(Some)));
        let source: Address = "1.2.3.4".parse().unwrap();
        let added = peers
            .take_message(form, &payload, source, NOW, &mut rng)
            .unwrap();
        assert_eq!(added.total, 1000);
        let cut = peers.take_message(form, &payload[..100], source, NOW, &mut rng);
        assert!(cut.is_err());
    }
    let onion = Address::of(addrman::Network::Onion, &[9; 32]).unwrap();
    let only = [Entry::new(Peer::new(onion, 1), 0, NOW)];
    assert_eq!(
        decode(Form::Addr, &encode(Form::Addr, &only).unwrap()),
        Ok(vec![])
    );
    assert_eq!(
        decode(Form::Addrv2, &encode(Form::Addrv2, &only).unwrap()),
        Ok(vec![Some(only[0])])
    );
    let more: Vec<_> = (0..1001).map(|_| only[0]).collect();
    assert!(encode(Form::Addrv2, &more).is_err());
}

#[test]
fn a_collision_is_decided_by_a_test() {
    let mut peers = many(20_000);
    assert!(peers.size().clashes > 0);
    let mut rng = rng(6);
    let occupant = peers.select_collision(&mut rng).unwrap();
    assert!(peers.find(&occupant.peer).unwrap().is_tried);
    // Nobody was tested: after 40 minutes each newcomer gets the slot.
    let waiting = peers.size().clashes;
    let resolved = peers.resolve_collisions(NOW + 5 * 3600);
    assert_eq!(resolved.moved + resolved.erased, waiting);
    assert!(resolved.moved > 0);
    assert_eq!(
        peers.good(&"9.9.9.9:1".parse().unwrap(), true, NOW),
        Good::Unknown
    );
}

#[test]
fn ten_peers_are_opened_in_ten_groups() {
    let peers = AddrMan::with_key([1; 32], None).unwrap();
    let mut opener = Opener::new();
    for group in 0..10 {
        let peer = Peer::new(Ipv4Addr::new(20 + group, 1, 1, 1), 8333);
        opener.opened(&peers, &peer).unwrap();
        assert_eq!(
            opener.opened(&peers, &peer).unwrap_err(),
            if group < 9 {
                addrman::OpenedError::SameGroup
            } else {
                addrman::OpenedError::Full
            }
        );
    }
    let pick = addrman::Pick {
        peer: "50.1.1.1:8333".parse().unwrap(),
        last_try: Some(NOW),
    };
    assert_eq!(opener.judge(&peers, &pick, NOW + 10, 1), Verdict::Recent);
    assert_eq!(opener.judge(&peers, &pick, NOW + 10, 31), Verdict::Take);
}

#[test]
fn sockets_are_those_of_std() {
    for text in ["1.2.3.4:8333", "[2001:db8::1]:1", "[::]:0"] {
        let socket: SocketAddr = text.parse().unwrap();
        assert_eq!(Peer::from(socket).to_string(), text);
        assert_eq!(SocketAddr::try_from(Peer::from(socket)), Ok(socket));
    }
    let onion = Address::of(addrman::Network::Onion, &[7; 32]).unwrap();
    assert!(SocketAddr::try_from(Peer::new(onion, 1)).is_err());
    assert_eq!(onion.to_string().parse(), Ok(onion));
}

#[cfg(feature = "serde")]
#[test]
fn serde_has_entries_and_picks() {
    let entry = Entry::new(peer(1), 9, NOW);
    let json = serde_json::to_string(&entry).unwrap();
    assert_eq!(json, r#"{"peer":"11.0.255.241:8333","services":9,"time":1700000000}"#);
    assert_eq!(serde_json::from_str::<Entry>(&json).unwrap(), entry);
    let pick = addrman::Pick {
        peer: peer(1),
        last_try: None,
    };
    let json = serde_json::to_string(&pick).unwrap();
    assert_eq!(serde_json::from_str::<addrman::Pick>(&json).unwrap(), pick);
    let address: Address = "[2001:db8::1]".parse().unwrap();
    let json = serde_json::to_string(&address).unwrap();
    assert_eq!(json, r#""[2001:db8::1]""#);
    assert_eq!(serde_json::from_str::<Address>(&json).unwrap(), address);
}

#[cfg(feature = "serde")]
#[test]
fn serde_has_texts() {
    let record = many(1).entries().unwrap()[0];
    let json = serde_json::to_string(&record).unwrap();
    assert!(json.contains(r#""peer":"11.0.0.0:8333""#), "{json}");
    assert_eq!(
        serde_json::from_str::<addrman::Record>(&json).unwrap(),
        record
    );
    assert!(serde_json::from_str::<Peer>(r#""1.2.3.4""#).is_err());
}
