//! The limit on addresses received from a connection.

use crate::{Address, AdmitError, Asked, Memory};
use plain_std::alloc::Global;
use plain_std::hash::RandomState;

/// What is known of a connection.
///
/// ```
/// # let mut limiter = addrman::Limiter::new();
/// limiter.open(7, "1.2.3.4".parse().unwrap(), false, 1_700_000_000).unwrap();
/// let connection = limiter.find(7).unwrap();
/// assert_eq!((connection.tenths, connection.processed, connection.limited), (10, 0, 0));
/// ```
#[derive(Clone, Copy, Debug, PartialEq, Eq)]
pub struct Connection {
    /// The other node's address.
    pub address: Address,
    /// Tenths of a token. A token admits an entry.
    pub tenths: u32,
    /// When tokens were last added, in seconds since 1970.
    pub moment: u32,
    /// Whether getaddr was sent.
    pub asked: bool,
    /// Whether entries are admitted without a token too.
    pub unlimited: bool,
    /// How many entries were admitted.
    pub processed: u32,
    /// How many entries were dropped.
    pub limited: u32,
}

/// The limit on addresses received: connections, by the numbers that the node gives them, with
/// tokens. An entry of a message costs one, and ten seconds give one.
///
/// ```
/// use addrman::{Asked, Limiter};
///
/// let mut limiter = Limiter::new();
/// let now = 1_700_000_000;
/// limiter.open(7, "1.2.3.4".parse().unwrap(), false, now).unwrap();
/// // One token to begin with, and one for each ten seconds.
/// assert_eq!(limiter.admit(7, 5, now + 20), Ok(3));
/// assert_eq!(limiter.getaddr(7), Asked::Granted);
/// assert_eq!(limiter.admit(7, 1000, now + 20), Ok(1000));
/// ```
pub struct Limiter(limiter_crate::Limiter<RandomState>);

impl Default for Limiter {
    fn default() -> Limiter {
        Limiter::new()
    }
}

impl Limiter {
    /// Returns a limit without connections.
    ///
    /// ```
    /// assert!(addrman::Limiter::new().find(1).is_none());
    /// ```
    pub fn new() -> Limiter {
        Limiter(limiter_crate::Limiter::make(
            Global,
            RandomState::of_process(),
        ))
    }

    /// Opens a connection, with one token. Returns `false` if its number has one.
    ///
    /// # Errors
    ///
    /// Out of memory; nothing changes then.
    ///
    /// ```
    /// # let mut limiter = addrman::Limiter::new();
    /// let address = "1.2.3.4".parse().unwrap();
    /// assert_eq!(limiter.open(7, address, false, 1_700_000_000), Ok(true));
    /// assert_eq!(limiter.open(7, address, false, 1_700_000_000), Ok(false));
    /// ```
    pub fn open(
        &mut self,
        number: u32,
        address: Address,
        unlimited: bool,
        now: u32,
    ) -> Result<bool, Memory> {
        Ok(self.0.add_conn(number, address.0, unlimited, now)?)
    }

    /// Closes a connection. Returns `false` if its number has none.
    ///
    /// ```
    /// assert!(!addrman::Limiter::new().close(7));
    /// ```
    pub fn close(&mut self, number: u32) -> bool {
        self.0.close_conn(number)
    }

    /// Gives a connection a thousand tokens, since getaddr was sent to it. It gets them once.
    ///
    /// ```
    /// assert_eq!(addrman::Limiter::new().getaddr(7), addrman::Asked::Unknown);
    /// ```
    pub fn getaddr(&mut self, number: u32) -> Asked {
        self.0.getaddr(number)
    }

    /// Takes a message of this many entries, and returns how many are admitted: the first ones.
    ///
    /// # Errors
    ///
    /// The number has no connection, or the message too many entries. Nothing changes then.
    ///
    /// ```
    /// use addrman::{AdmitError, Limiter};
    ///
    /// assert_eq!(Limiter::new().admit(7, 1, 0), Err(AdmitError::Unknown));
    /// ```
    pub fn admit(&mut self, number: u32, count: u32, now: u32) -> Result<u32, AdmitError> {
        Ok(node_face::admit(&mut self.0, number, count, now)?)
    }

    /// Returns what is known of a connection.
    ///
    /// ```
    /// # let mut limiter = addrman::Limiter::new();
    /// limiter.open(7, "1.2.3.4".parse().unwrap(), true, 1_700_000_000).unwrap();
    /// assert!(limiter.find(7).unwrap().unlimited);
    /// ```
    pub fn find(&self, number: u32) -> Option<Connection> {
        self.0.find(number).map(|conn| Connection {
            address: Address(conn.addr),
            tenths: conn.tenths,
            moment: conn.moment,
            asked: conn.asked,
            unlimited: conn.unlimited,
            processed: conn.processed,
            limited: conn.limited,
        })
    }
}

impl std::fmt::Debug for Limiter {
    fn fmt(&self, f: &mut std::fmt::Formatter<'_>) -> std::fmt::Result {
        f.write_str("Limiter")
    }
}
