//! The list of banned subnets.

use crate::folder::{InFolder, cause};
use crate::message::copied;
use crate::{Address, BanReply, BansError, Memory, ParseError, SaveError};
use host_io::DirFolder;
use node_face::{ProperBan, ProperSubnet};
use plain_std::alloc::Global;
use plain_std::vec;
use std::fmt;
use std::ops::Range;
use std::path::Path;
use std::str::FromStr;

/// The addresses of a network that begin with the same bits.
///
/// ```
/// use addrman::Subnet;
///
/// let subnet: Subnet = "10.1.2.3/8".parse().unwrap();
/// assert_eq!(subnet.to_string(), "10.0.0.0/8");
/// assert!(subnet.covers(&"10.9.9.9".parse().unwrap()));
/// ```
#[derive(Clone, Copy)]
pub struct Subnet(ProperSubnet);

impl Subnet {
    /// Returns whether an address is in the subnet.
    ///
    /// ```
    /// let subnet: addrman::Subnet = "10.0.0.0/8".parse().unwrap();
    /// assert!(!subnet.covers(&"11.0.0.1".parse().unwrap()));
    /// ```
    pub fn covers(&self, address: &Address) -> bool {
        self.0.subnet().covers(&address.0)
    }
}

/// An IPv4 address, an IPv6 address without brackets, either of them with a slash and a length in
/// bits, or a whole address of Tor v3, I2P or CJDNS.
impl FromStr for Subnet {
    type Err = ParseError;

    fn from_str(text: &str) -> Result<Subnet, ParseError> {
        ProperSubnet::parse(text.as_bytes())
            .map(Subnet)
            .ok_or(ParseError)
    }
}

impl fmt::Display for Subnet {
    fn fmt(&self, f: &mut fmt::Formatter<'_>) -> fmt::Result {
        show(&self.0, f)
    }
}

impl fmt::Debug for Subnet {
    fn fmt(&self, f: &mut fmt::Formatter<'_>) -> fmt::Result {
        fmt::Display::fmt(self, f)
    }
}

fn show(subnet: &ProperSubnet, f: &mut fmt::Formatter<'_>) -> fmt::Result {
    let mut text = vec::Vec::new(Global);
    subnet.put(&mut text).map_err(|_| fmt::Error)?;
    crate::address::pad(f, &text)
}

/// A subnet that is banned for a time.
///
/// ```
/// # let mut bans = addrman::Bans::new();
/// bans.ban(&"10.0.0.0/8".parse().unwrap(), 5, 10).unwrap();
/// let ban = bans.iter().next().unwrap();
/// assert_eq!(ban.to_string(), "10.0.0.0/8");
/// ```
#[derive(Clone, Copy, Debug, PartialEq, Eq)]
pub struct Ban(ProperBan);

impl Ban {
    /// Returns when the ban was made, in seconds since 1970.
    ///
    /// ```
    /// # let mut bans = addrman::Bans::new();
    /// bans.ban(&"10.0.0.0/8".parse().unwrap(), 5, 10).unwrap();
    /// assert_eq!(bans.iter().next().unwrap().created(), 5);
    /// ```
    pub fn created(&self) -> u32 {
        self.0.ban().created
    }

    /// Returns when the ban is over, in seconds since 1970.
    ///
    /// ```
    /// # let mut bans = addrman::Bans::new();
    /// bans.ban(&"10.0.0.0/8".parse().unwrap(), 5, 10).unwrap();
    /// assert_eq!(bans.iter().next().unwrap().until(), 10);
    /// ```
    pub fn until(&self) -> u32 {
        self.0.ban().until
    }

    /// Returns the address of the subnet, and how many of its bits count.
    ///
    /// ```
    /// # let mut bans = addrman::Bans::new();
    /// bans.ban(&"10.0.0.0/8".parse().unwrap(), 5, 10).unwrap();
    /// assert_eq!(bans.iter().next().unwrap().range(), ("10.0.0.0".parse().unwrap(), 8));
    /// ```
    pub fn range(&self) -> (Address, u16) {
        let subnet = self.0.ban().subnet;
        (Address(subnet.addr), subnet.len)
    }
}

/// Writes the subnet.
impl fmt::Display for Ban {
    fn fmt(&self, f: &mut fmt::Formatter<'_>) -> fmt::Result {
        show(&self.0.subnet(), f)
    }
}

/// The list of bans that a node keeps in `banlist.json`. Times are in seconds since 1970.
///
/// ```
/// use addrman::{BanReply, Bans};
///
/// let (mut bans, now) = (Bans::new(), 1_700_000_000);
/// let subnet = "10.0.0.0/8".parse().unwrap();
/// assert_eq!(bans.ban(&subnet, now, now + 86_400), Ok(BanReply::Added));
/// assert!(bans.covering(&"10.1.2.3".parse().unwrap(), now).is_some());
/// let json = bans.to_json().unwrap();
/// assert_eq!(Bans::from_json(&json).unwrap().iter().count(), 1);
/// ```
#[derive(Debug)]
pub struct Bans(pub(crate) ban_list::Bans);

impl Default for Bans {
    fn default() -> Bans {
        Bans::new()
    }
}

impl Bans {
    /// Returns an empty list.
    ///
    /// ```
    /// assert_eq!(addrman::Bans::new().iter().count(), 0);
    /// ```
    pub fn new() -> Bans {
        Bans(ban_list::Bans::make(Global))
    }

    /// Reads a `banlist.json`.
    ///
    /// # Errors
    ///
    /// The bytes are no list of bans, or there is no memory.
    ///
    /// ```
    /// assert!(addrman::Bans::from_json(b"{}").is_err());
    /// ```
    pub fn from_json(bytes: &[u8]) -> Result<Bans, BansError> {
        Ok(Bans(ban_list::read_bans(Global, bytes)?))
    }

    /// Returns the bytes of the `banlist.json` that keeps the list.
    ///
    /// # Errors
    ///
    /// Out of memory.
    ///
    /// ```
    /// assert!(addrman::Bans::new().to_json().is_ok());
    /// ```
    pub fn to_json(&self) -> Result<Vec<u8>, Memory> {
        copied(ban_list::write_bans(Global, &self.0)?.items())
    }

    /// Reads the `banlist.json` of a folder, or returns `None` if the folder has no such file.
    ///
    /// # Errors
    ///
    /// The folder is missing, the file cannot be read, or is no list of bans, or there is no
    /// memory.
    ///
    /// ```
    /// use addrman::Bans;
    ///
    /// let folder = std::env::temp_dir().join("addrman-doc-load-bans");
    /// std::fs::create_dir_all(&folder)?;
    /// # let _ = std::fs::remove_file(folder.join("banlist.json"));
    /// assert!(Bans::load(&folder)?.is_none());
    /// # Ok::<(), Box<dyn std::error::Error>>(())
    /// ```
    pub fn load(folder: impl AsRef<Path>) -> Result<Option<Bans>, BansError> {
        let files = InFolder(folder.as_ref());
        let mut folder = DirFolder::make(&files);
        match node_face::load_bans(Global, &mut folder) {
            Ok(Some(bans)) => Ok(Some(Bans(bans))),
            Ok(None) => files.look().map(|()| None).map_err(BansError::Folder),
            Err(fault) => Err(BansError::of(fault, cause(&folder))),
        }
    }

    /// Saves the list as the `banlist.json` of a folder, as [`AddrMan::save`](crate::AddrMan::save)
    /// saves the tables: until this returns `Ok`, a crash leaves the old file or the new one.
    ///
    /// # Errors
    ///
    /// Another program is saving there, a call of the system failed, or there is no memory.
    ///
    /// ```
    /// use addrman::Bans;
    ///
    /// let folder = std::env::temp_dir().join("addrman-doc-save-bans");
    /// std::fs::create_dir_all(&folder)?;
    /// let mut bans = Bans::new();
    /// bans.ban(&"10.0.0.0/8".parse()?, 1_700_000_000, 1_700_086_400)?;
    /// bans.save(&folder)?;
    /// assert_eq!(Bans::load(&folder)?.ok_or("no file")?.iter().len(), 1);
    /// # Ok::<(), Box<dyn std::error::Error>>(())
    /// ```
    pub fn save(&self, folder: impl AsRef<Path>) -> Result<(), SaveError> {
        let files = InFolder(folder.as_ref());
        let mut folder = DirFolder::make(&files);
        node_face::save_bans(Global, &self.0, &mut folder)
            .map_err(|fault| SaveError::of(fault, folder.is_in_use(), cause(&folder)))
    }

    /// Drops the bans that are over, and bans a subnet until a time. A ban that ends as late or
    /// later is kept.
    ///
    /// # Errors
    ///
    /// Out of memory; nothing changes then.
    ///
    /// ```
    /// use addrman::{BanReply, Bans};
    ///
    /// let (mut bans, subnet) = (Bans::new(), "10.0.0.0/8".parse().unwrap());
    /// assert_eq!(bans.ban(&subnet, 1, 10), Ok(BanReply::Added));
    /// assert_eq!(bans.ban(&subnet, 2, 10), Ok(BanReply::Kept));
    /// ```
    pub fn ban(&mut self, subnet: &Subnet, now: u32, until: u32) -> Result<BanReply, Memory> {
        Ok(node_face::ban(&mut self.0, &subnet.0, now, until)?)
    }

    /// Takes the ban of a subnet out of the list. Returns `false` if it is not listed.
    ///
    /// ```
    /// assert!(!addrman::Bans::new().unban(&"10.0.0.0/8".parse().unwrap()));
    /// ```
    pub fn unban(&mut self, subnet: &Subnet) -> bool {
        self.0.unban(&subnet.0.subnet())
    }

    /// Returns the first ban that covers an address and is not over.
    ///
    /// ```
    /// let bans = addrman::Bans::new();
    /// assert_eq!(bans.covering(&"10.1.2.3".parse().unwrap(), 1_700_000_000), None);
    /// ```
    pub fn covering(&self, address: &Address, now: u32) -> Option<Ban> {
        ProperBan::covering(&self.0, &address.0, now).map(Ban)
    }

    /// Returns the bans in their order.
    ///
    /// ```
    /// assert_eq!(addrman::Bans::new().iter().len(), 0);
    /// ```
    pub fn iter(&self) -> impl ExactSizeIterator<Item = Ban> + '_ {
        Listed {
            bans: &self.0,
            left: 0..self.0.bans().len(),
        }
    }
}

/// The bans of a list whose indices are left.
struct Listed<'a> {
    bans: &'a ban_list::Bans,
    left: Range<usize>,
}

impl Iterator for Listed<'_> {
    type Item = Ban;

    fn next(&mut self) -> Option<Ban> {
        ProperBan::at(self.bans, self.left.next()?).map(Ban)
    }

    fn size_hint(&self) -> (usize, Option<usize>) {
        self.left.size_hint()
    }
}

impl ExactSizeIterator for Listed<'_> {}
