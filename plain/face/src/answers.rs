//! The answers to getaddr that a node keeps.

use crate::message::copied;
use crate::words::Words;
use crate::{AddrMan, AnswerError, Bans, Form, Network};
use getaddr::Times;
use plain_std::alloc::Global;
use rand_core::RngCore;

/// A connection that asks for addresses.
///
/// ```
/// use addrman::{Form, Network, Request};
///
/// let request = Request::new(Network::Ipv4, 0, Form::Addrv2);
/// assert!(!request.own_times);
/// ```
#[derive(Clone, Copy, Debug, PartialEq, Eq)]
pub struct Request {
    /// The network of the other node ([`Address::reached_through`](crate::Address::reached_through)),
    /// or `Onion` if the connection came in by Tor.
    pub network: Network,
    /// The node's own number of the socket that the connection came in on.
    pub socket: u32,
    /// The form of the message: `Addrv2` if the other node sent sendaddrv2.
    pub form: Form,
    /// Whether each entry has the time of its record, for peers that the node trusts: give them a
    /// socket number of their own. Otherwise all entries of an answer have one time, 8 to 12 days
    /// before it was made, which tells nothing of the tables.
    pub own_times: bool,
}

impl Request {
    /// Makes a request whose answer hides the times of the records.
    ///
    /// ```
    /// # use addrman::{Form, Network, Request};
    /// assert_eq!(Request::new(Network::Onion, 1, Form::Addrv2).socket, 1);
    /// ```
    pub fn new(network: Network, socket: u32, form: Form) -> Request {
        Request {
            network,
            socket,
            form,
            own_times: false,
        }
    }
}

/// The answers to getaddr that a node keeps: one for each network of other nodes and local socket,
/// at most [`MAX_KEYS`](crate::MAX_KEYS). Whoever asks often gets the same answer, and so does not
/// see more of the tables. An answer is kept for 21 hours and a random part of six more, or for an
/// hour if it was made of fewer than 1000 records.
///
/// ```
/// use addrman::{AddrMan, Address, Answers, Bans, Entry, Form, Network, Peer, Request, decode};
/// use std::net::Ipv4Addr;
/// # use rand_xoshiro::{Xoshiro256PlusPlus, rand_core::SeedableRng};
///
/// # let mut rng = Xoshiro256PlusPlus::seed_from_u64(1);
/// let (mut peers, now) = (AddrMan::new(&mut rng).unwrap(), 1_700_000_000);
/// for number in 1..30 {
///     let peer = Peer::new(Ipv4Addr::new(number, 9, 9, 9), 8333);
///     let source: Address = "1.2.3.4".parse().unwrap();
///     peers.add(&Entry::new(peer, 1, now), source, 0, now, &mut rng).unwrap();
/// }
/// let (mut answers, bans) = (Answers::new(), Bans::new());
/// let request = Request::new(Network::Ipv4, 0, Form::Addrv2);
/// let first = answers.answer(&mut peers, &bans, &request, now, &mut rng).unwrap();
/// // 23 percent of the records.
/// assert_eq!(decode(Form::Addrv2, &first).unwrap().len(), 6);
/// let again = answers.answer(&mut peers, &bans, &request, now + 60, &mut rng).unwrap();
/// assert_eq!(again, first);
/// ```
pub struct Answers(addr_answers::Answers);

impl Default for Answers {
    fn default() -> Answers {
        Answers::new()
    }
}

impl Answers {
    /// Returns the answers of a node that was not asked yet.
    ///
    /// ```
    /// let answers = addrman::Answers::new();
    /// ```
    pub fn new() -> Answers {
        Answers(addr_answers::Answers::make(Global))
    }

    /// Drops all answers.
    ///
    /// ```
    /// # let mut answers = addrman::Answers::new();
    /// answers.forget();
    /// ```
    pub fn forget(&mut self) {
        self.0.forget();
    }

    /// Returns the payload of the message that answers a request, at most 49,003 bytes. Only
    /// inbound connections get an answer, and each only once.
    ///
    /// A new answer is a sample of at most 1000 records and 23 percent of them, of IPv4, IPv6, Tor,
    /// I2P and CJDNS, without terrible records and banned addresses. An `addr` message has the
    /// entries of IPv4 and IPv6 of the answer.
    ///
    /// # Errors
    ///
    /// 64 others have answers, or there is no memory. After [`forget`](Answers::forget) there is
    /// room.
    ///
    /// ```
    /// # use addrman::{AddrMan, AnswerError, Answers, Bans, Form, Network, Request};
    /// # use rand_xoshiro::{Xoshiro256PlusPlus, rand_core::SeedableRng};
    /// # let mut rng = Xoshiro256PlusPlus::seed_from_u64(1);
    /// # let (mut peers, mut answers) = (AddrMan::new(&mut rng).unwrap(), Answers::new());
    /// let (now, bans) = (1_700_000_000, Bans::new());
    /// for socket in 0..64 {
    ///     let request = Request::new(Network::Ipv6, socket, Form::Addr);
    ///     let payload = answers.answer(&mut peers, &bans, &request, now, &mut rng);
    ///     // The tables are empty.
    ///     assert_eq!(payload, Ok(vec![0]));
    /// }
    /// let request = Request::new(Network::Ipv6, 64, Form::Addr);
    /// let payload = answers.answer(&mut peers, &bans, &request, now, &mut rng);
    /// assert_eq!(payload, Err(AnswerError::NoRoom));
    /// ```
    pub fn answer<R: RngCore + ?Sized>(
        &mut self,
        peers: &mut AddrMan,
        bans: &Bans,
        request: &Request,
        now: u32,
        rng: &mut R,
    ) -> Result<Vec<u8>, AnswerError> {
        let Request {
            network,
            socket,
            form,
            own_times,
        } = *request;
        let times = if own_times { Times::Own } else { Times::Hidden };
        let bytes = node_face::answer(
            Global,
            &mut self.0,
            &mut peers.tables,
            &bans.0,
            network,
            socket,
            form,
            times,
            now,
            &mut Words(rng),
        )?;
        copied(bytes.items()).map_err(AnswerError::Memory)
    }
}

impl std::fmt::Debug for Answers {
    fn fmt(&self, f: &mut std::fmt::Formatter<'_>) -> std::fmt::Result {
        f.write_str("Answers")
    }
}
