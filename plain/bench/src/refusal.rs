/// Why nothing was measured.
#[derive(Clone, Copy, PartialEq, Eq)]
pub(crate) enum Refusal {
    /// The arguments of the command line could not be read.
    NoWords,
    /// The arguments name no task.
    Usage,
    /// The current folder has no asmap.dat.
    NoAsmap,
    /// The current folder has no prefixes.txt.
    NoPrefixes,
    /// The file is too large, the folder failed, or there is no memory for the bytes.
    NotLoaded,
    /// The file is that of no sane tree.
    Insane,
    /// The text is that of no table.
    NoTable,
    /// The table has no rows, or its code is too long.
    NotCompiled,
    /// There are too many records, or two of one peer.
    NotAdded,
    /// There is no memory for the records or the slots.
    NoMemory,
    /// The output failed.
    NotPrinted,
}

impl Refusal {
    /// One line's text, without its line feed.
    pub fn text(self) -> &'static str {
        match self {
            Refusal::NoWords => "the words cannot be read",
            Refusal::Usage => {
                "usage: bench asmap N, check TIMES, calls KIND TIMES, codecs KIND TIMES, \
                 table TIMES, matches N, compile TIMES, tables N, lines LENGTH TIMES, \
                 nodes N LINES, index-adds N TIMES, index-removes N TIMES, \
                 index-finds N SOME TIMES, or index-turns N SOME TIMES"
            }
            Refusal::NoAsmap => "asmap.dat is missing",
            Refusal::NoPrefixes => "prefixes.txt is missing",
            Refusal::NotLoaded => "the file cannot be loaded",
            Refusal::Insane => "asmap.dat is insane",
            Refusal::NoTable => "prefixes.txt is no table",
            Refusal::NotCompiled => "prefixes.txt has no rows, or its code is too long",
            Refusal::NotAdded => "too many records, or two of one peer",
            Refusal::NoMemory => "out of memory",
            Refusal::NotPrinted => "output cannot be written",
        }
    }
}
