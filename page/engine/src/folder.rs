use host_io::{Failed, Folder, NAMES, Name, Sink};

/// A folder in memory that keeps each file as it is now, and nothing of what it was.
pub struct Files {
    files: [Option<Vec<u8>>; NAMES.len()],
}

impl Files {
    /// Makes an empty folder.
    pub const fn new() -> Files {
        Files {
            files: [const { None }; NAMES.len()],
        }
    }

    /// Puts a file under the name with this position in `NAMES`. Returns whether there is one.
    pub fn put(&mut self, name: usize, bytes: Vec<u8>) -> bool {
        match self.files.get_mut(name) {
            Some(file) => {
                *file = Some(bytes);
                true
            }
            None => false,
        }
    }

    /// Returns the bytes of the file under the name with this position.
    pub fn get(&self, name: usize) -> Option<&[u8]> {
        self.files.get(name)?.as_deref()
    }

    /// Returns the bytes of the file of this name.
    pub fn file_of(&self, name: Name) -> Option<&[u8]> {
        self.get(position(name))
    }

    /// Removes all files.
    pub fn clear(&mut self) {
        *self = Files::new();
    }

    /// Returns the file of this name.
    fn file(&mut self, name: Name) -> &mut Option<Vec<u8>> {
        &mut self.files[position(name)]
    }
}

/// Returns the position of a name in `NAMES`.
fn position(name: Name) -> usize {
    NAMES.iter().position(|other| *other == name).unwrap_or(0)
}

/// Adds bytes at the end. Fails, and adds none, if there is no memory.
fn add(all: &mut Vec<u8>, bytes: &[u8]) -> Result<(), Failed> {
    all.try_reserve(bytes.len()).map_err(|_| Failed)?;
    all.extend_from_slice(bytes);
    Ok(())
}

impl Folder for Files {
    fn size(&mut self, name: Name) -> Result<Option<u64>, Failed> {
        Ok(self.file(name).as_ref().map(|file| file.len() as u64))
    }

    fn read(&mut self, name: Name, at: u64, buf: &mut [u8]) -> Result<usize, Failed> {
        let file = self.file(name).as_deref().unwrap_or(&[]);
        let rest = usize::try_from(at)
            .ok()
            .and_then(|at| file.get(at..))
            .unwrap_or(&[]);
        let count = rest.len().min(buf.len());
        buf[..count].copy_from_slice(&rest[..count]);
        Ok(count)
    }

    fn create(&mut self, name: Name) -> Result<(), Failed> {
        *self.file(name) = Some(Vec::new());
        Ok(())
    }

    fn append(&mut self, name: Name, bytes: &[u8]) -> Result<(), Failed> {
        add(self.file(name).get_or_insert_default(), bytes)
    }

    fn sync(&mut self, _name: Name) -> Result<(), Failed> {
        Ok(())
    }

    fn rename(&mut self, from: Name, to: Name) -> Result<(), Failed> {
        let file = self.file(from).take().ok_or(Failed)?;
        *self.file(to) = Some(file);
        Ok(())
    }

    fn sync_dir(&mut self) -> Result<(), Failed> {
        Ok(())
    }
}

/// An output in memory.
pub struct Output<'a> {
    pub bytes: &'a mut Vec<u8>,
}

impl Sink for Output<'_> {
    fn write(&mut self, piece: &[u8]) -> Result<usize, Failed> {
        add(self.bytes, piece)?;
        Ok(piece.len())
    }
}
