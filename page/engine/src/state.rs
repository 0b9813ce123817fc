use crate::columns::Columns;
use crate::folder::{Files, Output};
use crate::keyed::Keyed;
use crate::open::{open_peers, open_raw};
use addrman_main::{Facts, lines_of};
use addrman_run::{Learned, code, run_learning};
use hints::{Paths, Saves};
use host_io::StdSource;
use placing::SumRule;
use plain_std::alloc::{AllocError, Global};
use plain_std::string::String as Text;
use plain_std::vec::Vec as Items;

/// No save fails in memory.
const NO_SAVES: Saves = Saves {
    done: 0,
    failed: 0,
    is_unsaved: false,
};

/// The exit code of a run that there is no memory for.
const MEMORY: u32 = 12;

/// What is said of it if there is no memory for the program's own line.
const NO_MEMORY: &[u8] = b"addrman: out of memory\n";

/// What one instance of the module has.
pub struct State {
    /// The key of the hash tables.
    pub key: Keyed,
    /// The arguments of the next run.
    pub words: Vec<String>,
    /// The log of the next run.
    pub log: Vec<u8>,
    /// What the last run wrote.
    pub output: Vec<u8>,
    /// The lines of the last run for standard error.
    pub errors: Vec<u8>,
    pub files: Files,
    /// The tables that were opened last.
    pub columns: Columns,
}

static mut STATE: State = State::new();

/// Returns the state of this instance.
pub fn state() -> &'static mut State {
    // SAFETY: a module of wasm32 has one thread, and no export is called while another one runs.
    unsafe { &mut *&raw mut STATE }
}

impl State {
    const fn new() -> State {
        State {
            key: Keyed {
                first: 0,
                second: 0,
            },
            words: Vec::new(),
            log: Vec::new(),
            output: Vec::new(),
            errors: Vec::new(),
            files: Files::new(),
            columns: Columns::new(),
        }
    }

    /// Runs the program over the files, and returns its exit code.
    pub fn run(&mut self) -> u32 {
        self.output = Vec::new();
        self.errors.clear();
        let code = self.run_over().unwrap_or(MEMORY);
        if code == MEMORY && self.errors.is_empty() {
            self.errors.extend_from_slice(NO_MEMORY);
        }
        code
    }

    /// Opens `peers.dat` as columns, and returns whether that was possible. If not, a run says why.
    pub fn open_peers(&mut self, rule: SumRule) -> bool {
        self.columns = Columns::new();
        match open_peers(&self.files, rule, self.key) {
            Some(columns) => self.columns = columns,
            None => return false,
        }
        true
    }

    /// Opens the log, which is what `getrawaddrman` printed, as columns. If that is not possible,
    /// the lines for standard error say why, or a run does.
    pub fn open_raw(&mut self) -> bool {
        self.columns = Columns::new();
        self.errors.clear();
        let text = std::mem::take(&mut self.log);
        match open_raw(&self.files, &text, self.key) {
            Ok(columns) => self.columns = columns,
            Err(why) => {
                self.errors = why.into_bytes();
                return false;
            }
        }
        true
    }

    fn run_over(&mut self) -> Result<u32, AllocError> {
        let alloc = Global;
        let log = std::mem::take(&mut self.log);
        let mut words = Items::new(alloc);
        for word in std::mem::take(&mut self.words) {
            words.push(Text::from_str(alloc, &word)?)?;
        }
        let words = words.as_slice();
        let mut source = StdSource::make(log.as_slice());
        let mut sink = Output {
            bytes: &mut self.output,
        };
        let mut learned = Learned::make(alloc);
        let status = run_learning(
            alloc,
            self.key,
            words,
            &mut source,
            &mut self.files,
            &mut sink,
            &mut learned,
        );
        let facts = Facts {
            words,
            hint: "",
            learned: &learned,
            paths: &Paths::none(),
            input: None,
            output: None,
            failure: "",
            saves: NO_SAVES,
        };
        let lines = lines_of(alloc, &status, &facts);
        self.errors.extend_from_slice(lines.as_bytes());
        Ok(code(&status).into())
    }
}
