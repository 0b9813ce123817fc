//! To whom a node connects.

use crate::{AddrMan, OpenedError, Peer, Pick, Verdict};

/// The outbound peers that are open, at most ten and no two of one group.
///
/// ```
/// use addrman::{AddrMan, Opener, Peer, Pick, Verdict};
///
/// let peers = AddrMan::with_key([0; 32], None).unwrap();
/// let mut opener = Opener::new();
/// let pick = Pick { peer: "8.8.8.8:8333".parse().unwrap(), last_try: None };
/// let now = 1_700_000_000;
/// assert_eq!(opener.judge(&peers, &pick, now, 1), Verdict::Take);
/// opener.opened(&peers, &pick.peer).unwrap();
/// assert_eq!(opener.judge(&peers, &pick, now, 1), Verdict::SameGroup);
/// assert!(opener.closed(&pick.peer));
/// assert!(opener.is_empty());
/// ```
pub struct Opener(peer_open::Opener);

impl Default for Opener {
    fn default() -> Opener {
        Opener::new()
    }
}

impl Opener {
    /// Returns an opener without open peers.
    ///
    /// ```
    /// assert_eq!(addrman::Opener::new().len(), 0);
    /// ```
    pub fn new() -> Opener {
        Opener(peer_open::Opener::make())
    }

    /// Returns how many peers are open.
    ///
    /// ```
    /// assert_eq!(addrman::Opener::new().len(), 0);
    /// ```
    pub fn len(&self) -> usize {
        self.0.len()
    }

    /// Returns whether no peer is open.
    ///
    /// ```
    /// assert!(addrman::Opener::new().is_empty());
    /// ```
    pub fn is_empty(&self) -> bool {
        self.len() == 0
    }

    /// Decides whether to connect to a peer, in the try of this number, the first of which is 1. A
    /// node makes at most [`MAX_TRIES`](crate::MAX_TRIES) for a connection.
    ///
    /// ```
    /// # use addrman::{AddrMan, Opener, Pick, Verdict};
    /// # let peers = AddrMan::with_key([0; 32], None).unwrap();
    /// let now = 1_700_000_000;
    /// let pick = Pick { peer: "8.8.8.8:8333".parse().unwrap(), last_try: Some(now - 60) };
    /// assert_eq!(Opener::new().judge(&peers, &pick, now, 1), Verdict::Recent);
    /// ```
    pub fn judge(&self, peers: &AddrMan, pick: &Pick, now: u32, tries: u32) -> Verdict {
        let group = peers.tables.placer().group(&pick.peer.0.addr);
        let last_try = pick.last_try.unwrap_or(0);
        self.0.judge(group.as_slice(), last_try, now, tries)
    }

    /// Decides whether to connect to a peer for a moment, to test whether it answers. Groups do not
    /// count for such a connection.
    ///
    /// ```
    /// # use addrman::{Opener, Pick, Verdict};
    /// let pick = Pick { peer: "8.8.8.8:8333".parse().unwrap(), last_try: None };
    /// assert_eq!(Opener::new().judge_feeler(&pick, 1_700_000_000, 1), Verdict::Take);
    /// ```
    pub fn judge_feeler(&self, pick: &Pick, now: u32, tries: u32) -> Verdict {
        self.0.judge_feeler(pick.last_try.unwrap_or(0), now, tries)
    }

    /// Notes that a peer was opened.
    ///
    /// # Errors
    ///
    /// Ten peers are open, or one of its group is. Nothing changes then.
    ///
    /// ```
    /// # use addrman::{AddrMan, OpenedError, Opener};
    /// # let peers = AddrMan::with_key([0; 32], None).unwrap();
    /// let mut opener = Opener::new();
    /// opener.opened(&peers, &"8.8.8.8:8333".parse().unwrap()).unwrap();
    /// let other = "8.8.4.4:8333".parse().unwrap();
    /// assert_eq!(opener.opened(&peers, &other), Err(OpenedError::SameGroup));
    /// ```
    pub fn opened(&mut self, peers: &AddrMan, peer: &Peer) -> Result<(), OpenedError> {
        node_face::add_outbound(&mut self.0, peers.tables.placer(), &peer.0)?;
        Ok(())
    }

    /// Notes that a peer was closed. Returns `false` if it was not open.
    ///
    /// ```
    /// assert!(!addrman::Opener::new().closed(&"8.8.8.8:8333".parse().unwrap()));
    /// ```
    pub fn closed(&mut self, peer: &Peer) -> bool {
        self.0.close_peer(&peer.0)
    }
}

impl std::fmt::Debug for Opener {
    fn fmt(&self, f: &mut std::fmt::Formatter<'_>) -> std::fmt::Result {
        f.debug_struct("Opener").field("len", &self.len()).finish()
    }
}
