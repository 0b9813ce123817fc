//! Why a call fails.

use crate::{BanFault, CodeFault, FileFault, MsgFault, TableFault};
use asmap_back::BackFault;
use asmap_compile::CompileFault;
use node_face::{
    AddFault, AdmitFault, AnswerFault, ListFault, OpenFault, OutboundFault, SaveFault, TakeFault,
    WriteFault,
};
use std::fmt;
use std::io;
use thiserror::Error;

/// Out of memory.
///
/// ```
/// assert_eq!(addrman::Memory.to_string(), "out of memory");
/// ```
#[derive(Clone, Copy, Debug, PartialEq, Eq, Error)]
#[error("out of memory")]
pub struct Memory;

impl From<tables::Memory> for Memory {
    fn from(_: tables::Memory) -> Memory {
        Memory
    }
}

impl From<std::collections::TryReserveError> for Memory {
    fn from(_: std::collections::TryReserveError) -> Memory {
        Memory
    }
}

/// Why an entry is not added.
///
/// ```
/// assert_eq!(addrman::AddError::Full.to_string(), "the numbers of records are used up");
/// ```
#[derive(Clone, Copy, Debug, PartialEq, Eq, Error)]
pub enum AddError {
    /// The numbers of records are used up: 2^62 records were made.
    #[error("the numbers of records are used up")]
    Full,
    /// Out of memory.
    #[error(transparent)]
    Memory(Memory),
}

impl From<AddFault> for AddError {
    fn from(fault: AddFault) -> AddError {
        match fault {
            AddFault::Full => AddError::Full,
            AddFault::Memory => AddError::Memory(Memory),
        }
    }
}

/// Why a message is not taken.
///
/// ```
/// use addrman::{Form, decode};
///
/// let error = decode(Form::Addrv2, &[2]).unwrap_err();
/// assert_eq!(error.to_string(), "the payload is no message: truncated");
/// ```
#[derive(Clone, Copy, Debug, PartialEq, Eq, Error)]
pub enum MessageError {
    /// The numbers of records are used up: 2^62 records were made.
    #[error("the numbers of records are used up")]
    Full,
    /// The payload is no message: its first fault.
    #[error("the payload is no message: {0}")]
    Malformed(MsgFault),
    /// Out of memory. Some of the first entries may have been added.
    #[error(transparent)]
    Memory(Memory),
}

impl From<TakeFault> for MessageError {
    fn from(fault: TakeFault) -> MessageError {
        match fault {
            TakeFault::Full => MessageError::Full,
            TakeFault::Refused(fault) => MessageError::Malformed(fault),
            // There is a word for each entry that a message may have.
            TakeFault::ShortWords { .. } => MessageError::Malformed(MsgFault::TooMany),
            TakeFault::Memory => MessageError::Memory(Memory),
        }
    }
}

impl From<MsgFault> for MessageError {
    fn from(fault: MsgFault) -> MessageError {
        match fault {
            MsgFault::Memory => MessageError::Memory(Memory),
            fault => MessageError::Malformed(fault),
        }
    }
}

/// Why a message is not written.
///
/// ```
/// use addrman::{EncodeError, Entry, Form, Peer, encode};
///
/// let peer: Peer = "8.8.8.8:8333".parse().unwrap();
/// let entries = vec![Entry::new(peer, 1, 1_700_000_000); 1001];
/// assert_eq!(encode(Form::Addr, &entries), Err(EncodeError::TooMany));
/// ```
#[derive(Clone, Copy, Debug, PartialEq, Eq, Error)]
pub enum EncodeError {
    /// A message has at most [`MAX_ENTRIES`](crate::MAX_ENTRIES) entries.
    #[error("too many entries for a message")]
    TooMany,
    /// Out of memory.
    #[error(transparent)]
    Memory(Memory),
}

impl From<WriteFault> for EncodeError {
    fn from(fault: WriteFault) -> EncodeError {
        match fault {
            WriteFault::TooMany => EncodeError::TooMany,
            WriteFault::Memory => EncodeError::Memory(Memory),
        }
    }
}

/// Why a search ends without an answer.
///
/// ```
/// let error = addrman::SelectError::Exhausted;
/// assert_eq!(error.to_string(), "the random words lead to no record");
/// ```
#[derive(Clone, Copy, Debug, PartialEq, Eq, Error)]
pub enum SelectError {
    /// 2^20 random words led to no record. With a generator whose words are random, this does not
    /// happen.
    #[error("the random words lead to no record")]
    Exhausted,
    /// Out of memory.
    #[error(transparent)]
    Memory(Memory),
}

impl From<std::collections::TryReserveError> for SelectError {
    fn from(_: std::collections::TryReserveError) -> SelectError {
        SelectError::Memory(Memory)
    }
}

/// Why tables are not read.
///
/// ```
/// use addrman::{AddrMan, Chain};
///
/// let error = AddrMan::from_bytes(&[], Chain::Main, None).unwrap_err();
/// assert_eq!(error.to_string(), "no peers.dat of this chain: truncated");
/// ```
#[derive(Debug, Error)]
pub enum LoadError {
    /// A call of the system failed.
    #[error("peers.dat cannot be read: {0}")]
    Io(#[source] io::Error),
    /// The folder is missing, or cannot be looked into.
    #[error("the folder of peers.dat cannot be read: {0}")]
    Folder(#[source] io::Error),
    /// The bytes are no `peers.dat` of the chain: their first fault.
    #[error("no peers.dat of this chain: {0}")]
    File(FileFault),
    /// Two valid records have one peer.
    #[error("record {index} has the peer of an earlier one")]
    Duplicate {
        /// The index of the later one, counted from 0, the new ones first.
        index: u32,
    },
    /// Out of memory.
    #[error(transparent)]
    Memory(Memory),
}

impl LoadError {
    /// The error of a fault, with the system's error if the folder failed.
    pub(crate) fn of(fault: OpenFault, cause: io::Error) -> LoadError {
        match fault {
            OpenFault::Disk => LoadError::Io(cause),
            OpenFault::File(FileFault::Memory) | OpenFault::Memory => LoadError::Memory(Memory),
            OpenFault::TooLarge { size } => LoadError::File(FileFault::TooLarge { size }),
            OpenFault::File(fault) => LoadError::File(fault),
            OpenFault::Duplicate { index } => LoadError::Duplicate { index },
        }
    }
}

/// Why a file is not saved. The one that was there is as it was, or the new one.
///
/// ```
/// use addrman::{AddrMan, Chain, SaveError};
///
/// let peers = AddrMan::with_key([7; 32], None).unwrap();
/// let nowhere = std::env::temp_dir().join("addrman-doc-no-folder");
/// assert!(matches!(peers.save(nowhere, Chain::Main), Err(SaveError::Io(_))));
/// ```
#[derive(Debug, Error)]
pub enum SaveError {
    /// Another program was saving in the folder.
    #[error("another program is saving in the folder")]
    InUse,
    /// A call of the system failed.
    #[error("the file cannot be saved: {0}")]
    Io(#[source] io::Error),
    /// Out of memory. Nothing was written.
    #[error(transparent)]
    Memory(Memory),
}

impl SaveError {
    /// The error of a fault, with the system's error if the folder failed.
    pub(crate) fn of(fault: SaveFault, is_in_use: bool, cause: io::Error) -> SaveError {
        match fault {
            SaveFault::Disk if is_in_use => SaveError::InUse,
            SaveFault::Disk => SaveError::Io(cause),
            SaveFault::Memory => SaveError::Memory(Memory),
        }
    }
}

/// Why bytes are no asmap.
///
/// ```
/// let error = addrman::Asmap::new(&[0xff]).unwrap_err();
/// assert_eq!(error.to_string(), "no asmap: insane");
/// ```
#[derive(Clone, Copy, PartialEq, Eq)]
pub struct AsmapError(pub(crate) CodeFault);

impl AsmapError {
    /// Returns what is wrong with the bytes.
    ///
    /// ```
    /// use addrman::{Asmap, CodeFault};
    ///
    /// assert_eq!(Asmap::new(&[0xff]).unwrap_err().fault(), CodeFault::Insane);
    /// ```
    pub fn fault(&self) -> CodeFault {
        self.0
    }
}

impl fmt::Debug for AsmapError {
    fn fmt(&self, f: &mut fmt::Formatter<'_>) -> fmt::Result {
        self.0.fmt(f)
    }
}

impl fmt::Display for AsmapError {
    fn fmt(&self, f: &mut fmt::Formatter<'_>) -> fmt::Result {
        f.write_str("no asmap: ")?;
        crate::address::pad(f, self.0.word())
    }
}

impl std::error::Error for AsmapError {}

/// Why a text is not compiled to an asmap.
///
/// ```
/// let error = addrman::Asmap::compile(b"8.8.8.0/24\n").unwrap_err();
/// assert!(error.to_string().starts_with("no table of prefixes: "));
/// ```
#[derive(Clone, Copy, Debug, PartialEq, Eq, Error)]
pub enum CompileError {
    /// The text is that of no table of prefixes: the fault of its first line that has one.
    #[error("no table of prefixes: {0}")]
    Table(TableFault),
    /// The table has no rows.
    #[error("the table has no rows")]
    Empty,
    /// The asmap would be too large.
    #[error("the asmap would have {bits} bits")]
    TooLarge {
        /// How many bits it would have.
        bits: u64,
    },
    /// Out of memory.
    #[error(transparent)]
    Memory(Memory),
}

impl From<TableFault> for CompileError {
    fn from(fault: TableFault) -> CompileError {
        match fault {
            TableFault::Memory => CompileError::Memory(Memory),
            fault => CompileError::Table(fault),
        }
    }
}

impl From<CompileFault> for CompileError {
    fn from(fault: CompileFault) -> CompileError {
        match fault {
            CompileFault::Empty => CompileError::Empty,
            CompileFault::TooLarge { bits } => CompileError::TooLarge { bits },
            CompileFault::Memory => CompileError::Memory(Memory),
        }
    }
}

/// Why an asmap is not turned back into a table of prefixes.
///
/// ```
/// let error = addrman::DecompileError::TooMany;
/// assert_eq!(error.to_string(), "the table would have too many rows");
/// ```
#[derive(Clone, Copy, Debug, PartialEq, Eq, Error)]
pub enum DecompileError {
    /// The table would have too many rows.
    #[error("the table would have too many rows")]
    TooMany,
    /// Out of memory.
    #[error(transparent)]
    Memory(Memory),
}

impl From<BackFault> for DecompileError {
    fn from(fault: BackFault) -> DecompileError {
        match fault {
            BackFault::TooMany { .. } => DecompileError::TooMany,
            BackFault::Memory => DecompileError::Memory(Memory),
        }
    }
}

/// Why a list of bans is not read.
///
/// ```
/// let error = addrman::Bans::from_json(b"{}").unwrap_err();
/// assert_eq!(error.to_string(), "no list of bans: form");
/// ```
#[derive(Debug, Error)]
pub enum BansError {
    /// A call of the system failed.
    #[error("banlist.json cannot be read: {0}")]
    Io(#[source] io::Error),
    /// The folder is missing, or cannot be looked into.
    #[error("the folder of banlist.json cannot be read: {0}")]
    Folder(#[source] io::Error),
    /// The bytes are no list of bans.
    #[error("no list of bans: {0}")]
    File(BanFault),
    /// Out of memory.
    #[error(transparent)]
    Memory(Memory),
}

impl From<BanFault> for BansError {
    fn from(fault: BanFault) -> BansError {
        match fault {
            BanFault::Memory => BansError::Memory(Memory),
            fault => BansError::File(fault),
        }
    }
}

impl BansError {
    /// The error of a fault, with the system's error if the folder failed.
    pub(crate) fn of(fault: ListFault, cause: io::Error) -> BansError {
        match fault {
            ListFault::Disk => BansError::Io(cause),
            ListFault::TooLarge { size } => BansError::File(BanFault::TooLarge { size }),
            ListFault::File(fault) => fault.into(),
            ListFault::Memory => BansError::Memory(Memory),
        }
    }
}

/// Why a request for addresses has no answer.
///
/// ```
/// assert_eq!(addrman::AnswerError::NoRoom.to_string(), "there is no room for an answer");
/// ```
#[derive(Clone, Copy, Debug, PartialEq, Eq, Error)]
pub enum AnswerError {
    /// [`MAX_KEYS`](crate::MAX_KEYS) others have answers, those that are over among them.
    #[error("there is no room for an answer")]
    NoRoom,
    /// Out of memory. A new answer may be kept.
    #[error(transparent)]
    Memory(Memory),
}

impl From<AnswerFault> for AnswerError {
    fn from(fault: AnswerFault) -> AnswerError {
        match fault {
            AnswerFault::NoRoom => AnswerError::NoRoom,
            AnswerFault::Memory => AnswerError::Memory(Memory),
        }
    }
}

/// Why no entries of a message are admitted.
///
/// ```
/// use addrman::{AdmitError, Limiter};
///
/// assert_eq!(Limiter::new().admit(7, 1001, 0), Err(AdmitError::TooMany));
/// ```
#[derive(Clone, Copy, Debug, PartialEq, Eq, Error)]
pub enum AdmitError {
    /// The number has no connection.
    #[error("the number has no connection")]
    Unknown,
    /// A message has at most [`MAX_ENTRIES`](crate::MAX_ENTRIES) entries.
    #[error("too many entries for a message")]
    TooMany,
}

impl From<AdmitFault> for AdmitError {
    fn from(fault: AdmitFault) -> AdmitError {
        match fault {
            AdmitFault::Unknown => AdmitError::Unknown,
            AdmitFault::TooMany => AdmitError::TooMany,
        }
    }
}

/// Why a peer is not noted as open.
///
/// ```
/// assert_eq!(addrman::OpenedError::Full.to_string(), "ten peers are open");
/// ```
#[derive(Clone, Copy, Debug, PartialEq, Eq, Error)]
pub enum OpenedError {
    /// [`MAX_OUTBOUND`](crate::MAX_OUTBOUND) peers are open.
    #[error("ten peers are open")]
    Full,
    /// A peer of its network group is open.
    #[error("a peer of the group is open")]
    SameGroup,
}

impl From<OutboundFault> for OpenedError {
    fn from(fault: OutboundFault) -> OpenedError {
        match fault {
            OutboundFault::Full => OpenedError::Full,
            OutboundFault::SameGroup => OpenedError::SameGroup,
        }
    }
}
