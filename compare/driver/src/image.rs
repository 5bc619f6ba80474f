//! The Rust's disk: an image in memory that counts stores and can stop after some. A store is the run of writes after one seek.
use std::cell::RefCell;
use std::io::{Error, ErrorKind, Read, Result, Seek, SeekFrom, Write};
use std::rc::Rc;

#[derive(Clone)]
pub struct Store {
    pub at: usize,
    pub old: Vec<u8>,
}

pub struct Held {
    pub bytes: Vec<u8>,
    pub log: Vec<Store>,
    pub logged: bool,
    pub seeks: Vec<u64>,
    left: Option<u64>,
    sought: bool,
}
pub type Shared = Rc<RefCell<Held>>;

pub fn shared(bytes: Vec<u8>) -> Shared {
    Rc::new(RefCell::new(Held { bytes, log: Vec::new(), logged: true, seeks: Vec::new(), left: None, sought: true }))
}

impl Held {
    /// A call begins, which is to stop after `cut` stores.
    pub fn begin(&mut self, cut: Option<u64>) {
        self.log.clear();
        self.seeks.clear();
        self.left = cut;
        self.sought = true;
    }
}

pub struct Image {
    shared: Shared,
    at: usize,
}
impl Image {
    pub fn over(shared: &Shared) -> Image {
        Image { shared: shared.clone(), at: 0 }
    }
}

impl Read for Image {
    fn read(&mut self, to: &mut [u8]) -> Result<usize> {
        let held = self.shared.borrow();
        let rest = held.bytes.get(self.at..).unwrap_or(&[]);
        let n = to.len().min(rest.len());
        to[..n].copy_from_slice(&rest[..n]);
        self.at += n;
        Ok(n)
    }
}

impl Write for Image {
    fn write(&mut self, from: &[u8]) -> Result<usize> {
        let mut held = self.shared.borrow_mut();
        let held = &mut *held;
        let end = self.at.checked_add(from.len()).filter(|&e| e <= held.bytes.len()).ok_or(Error::from(ErrorKind::WriteZero))?;
        if held.sought {
            match &mut held.left {
                Some(0) => return Err(Error::from(ErrorKind::Other)),
                Some(n) => *n -= 1,
                None => (),
            }
            if held.logged {
                held.log.push(Store { at: self.at, old: Vec::new() });
            }
            held.sought = false;
        }
        if held.logged {
            held.log.last_mut().expect("a store has begun").old.extend_from_slice(&held.bytes[self.at..end]);
        }
        held.bytes[self.at..end].copy_from_slice(from);
        self.at = end;
        Ok(from.len())
    }
    fn flush(&mut self) -> Result<()> {
        Ok(())
    }
}

impl Seek for Image {
    fn seek(&mut self, to: SeekFrom) -> Result<u64> {
        let at = match to {
            SeekFrom::Start(n) => Some(n),
            SeekFrom::Current(d) => (self.at as u64).checked_add_signed(d),
            SeekFrom::End(d) => (self.shared.borrow().bytes.len() as u64).checked_add_signed(d),
        };
        self.at = at.ok_or(Error::from(ErrorKind::InvalidInput))? as usize;
        let mut held = self.shared.borrow_mut();
        held.sought = true;
        if held.logged {
            held.seeks.push(self.at as u64);
        }
        Ok(self.at as u64)
    }
}
