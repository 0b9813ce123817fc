use crate::groups::NoMemory;
use names::name_of;
use net_addr::{NetAddr, put_addr};
use plain_std::alloc::Global;
use plain_std::vec::Vec as Items;

/// What addresses are called, a line each.
pub struct Texts {
    /// As people write them.
    pub names: Vec<u8>,
    /// As in a log.
    pub forms: Vec<u8>,
}

impl Texts {
    pub const fn new() -> Texts {
        Texts {
            names: Vec::new(),
            forms: Vec::new(),
        }
    }

    /// Appends the line of an address to both.
    pub fn put(&mut self, addr: &NetAddr) -> Result<(), NoMemory> {
        put_line(name_of(Global, addr)?.as_bytes(), &mut self.names)?;
        let mut form = Items::new(Global);
        put_addr(addr, &mut form)?;
        put_line(form.as_slice(), &mut self.forms)
    }
}

fn put_line(text: &[u8], out: &mut Vec<u8>) -> Result<(), NoMemory> {
    out.try_reserve(text.len() + 1)?;
    out.extend_from_slice(text);
    out.push(b'\n');
    Ok(())
}
