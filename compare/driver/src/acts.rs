//! The calls that change inodes, and those on directories and attributes, of the port beside the Rust's and beside the driver's own
//! account of 01: answer, every byte of the image and the lent buffer after every call, on cards as they are and damaged.
use crate::account::{Account, Out, PANIC};
use crate::image::{self, Image, Shared};
use crate::inode_rules::{carried, Record, DIR, LENT};
use crate::dir_account::New;
use crate::inodes::{kind_number, kind_of, words};
use crate::rules::{self, number, put_number, word, Card};
use crate::{open_rust, port, Random};
use rufs::{InodeNum, Ufs};
use std::collections::BTreeMap;
use std::ffi::OsStr;
use std::os::unix::ffi::OsStrExt;
use std::panic::{catch_unwind, AssertUnwindSafe};
use std::time::{Duration, Instant, SystemTime};

pub type Times = [(i64, u32); 4];

#[derive(Clone, PartialEq)]
pub enum Act {
    Modify(u32, u16, [u32; 3], Times),
    Truncate(u32, u64),
    Write(u32, u64, Vec<u8>),
    Lookup(u32, Vec<u8>),
    /// All records of a directory, by the cursor from 0 on.
    Iterate(u32),
    /// From a cursor on, with a buffer of that length: the Rust has no such call.
    Next(u32, u64, usize),
    AttrListLen(u32),
    AttrLen(u32, Vec<u8>),
    AttrList(u32, usize),
    AttrRead(u32, Vec<u8>, usize),
    Unlink(u32, Vec<u8>),
    Mknod(u32, Vec<u8>, New),
    Mkdir(u32, Vec<u8>, New),
    /// The target's directory and name, the source's, and whether the target may be replaced.
    Rename(u32, Vec<u8>, u32, Vec<u8>, bool),
    Rmdir(u32, Vec<u8>),
}

fn shown(bytes: &[u8]) -> String {
    match bytes.len() {
        0..=16 => format!("b\"{}\"", bytes.escape_ascii()),
        n => format!("{n} bytes b\"{}\"..", bytes[..8].escape_ascii()),
    }
}

impl std::fmt::Display for Act {
    fn fmt(&self, f: &mut std::fmt::Formatter) -> std::fmt::Result {
        match self {
            Act::Modify(inr, perm, owners, times) => write!(f, "inode_modify({inr}, {perm:o}, {owners:?}, {times:?})"),
            Act::Truncate(inr, size) => write!(f, "inode_truncate({inr}, {size})"),
            Act::Write(inr, off, bytes) => write!(f, "inode_write({inr}, {off}, {})", shown(bytes)),
            Act::Lookup(inr, name) => write!(f, "dir_lookup({inr}, {})", shown(name)),
            Act::Iterate(inr) => write!(f, "dir_iter({inr})"),
            Act::Next(inr, cur, room) => write!(f, "dir_next({inr}, {cur}, {room})"),
            Act::AttrListLen(inr) => write!(f, "xattr_list_len({inr})"),
            Act::AttrLen(inr, name) => write!(f, "xattr_len({inr}, {})", shown(name)),
            Act::AttrList(inr, room) => write!(f, "xattr_list({inr}, {room})"),
            Act::AttrRead(inr, name, room) => write!(f, "xattr_read({inr}, {}, {room})", shown(name)),
            Act::Unlink(dir, name) => write!(f, "unlink({dir}, {})", shown(name)),
            Act::Mknod(dir, name, new) => write!(f, "mknod({dir}, {}, kind {}, {:o})", shown(name), new.kind, new.perm),
            Act::Mkdir(dir, name, new) => write!(f, "mkdir({dir}, {}, {:o})", shown(name), new.perm),
            Act::Rename(dd, dname, sd, sname, replace) => write!(f, "rename({dd}, {}, {sd}, {}, {replace})", shown(dname), shown(sname)),
            Act::Rmdir(dir, name) => write!(f, "rmdir({dir}, {})", shown(name)),
        }
    }
}

impl Act {
    fn name(&self) -> &'static str {
        match self {
            Act::Modify(..) => "inode_modify",
            Act::Truncate(..) => "inode_truncate",
            Act::Write(..) => "inode_write",
            Act::Lookup(..) => "dir_lookup",
            Act::Iterate(..) => "dir_iter",
            Act::Next(..) => "dir_next",
            Act::AttrListLen(..) => "xattr_list_len",
            Act::AttrLen(..) => "xattr_len",
            Act::AttrList(..) => "xattr_list",
            Act::AttrRead(..) => "xattr_read",
            Act::Unlink(..) => "unlink",
            Act::Mknod(..) => "mknod",
            Act::Mkdir(..) => "mkdir",
            Act::Rename(..) => "rename",
            Act::Rmdir(..) => "rmdir",
        }
    }
    fn writes(&self) -> bool {
        matches!(self, Act::Modify(..) | Act::Truncate(..) | Act::Write(..)) || self.names()
    }
    fn names(&self) -> bool {
        matches!(self, Act::Unlink(..) | Act::Mknod(..) | Act::Mkdir(..) | Act::Rename(..) | Act::Rmdir(..))
    }
    fn room(&self) -> usize {
        match self {
            Act::Next(_, _, room) | Act::AttrList(_, room) | Act::AttrRead(_, _, room) => *room,
            _ => 0,
        }
    }
    /// Smaller calls of the same kind, to be tried in its place.
    fn smaller(&self) -> Vec<Act> {
        match self {
            Act::Write(inr, off, bytes) => {
                let fewer = [0, bytes.len() / 2, bytes.len().saturating_sub(1)].map(|n| Act::Write(*inr, *off, bytes[..n].to_vec()));
                fewer.into_iter().chain([off / 2, off.saturating_sub(1)].map(|o| Act::Write(*inr, o, bytes.clone()))).collect()
            }
            Act::Truncate(inr, size) => [size / 2, size.saturating_sub(1)].map(|n| Act::Truncate(*inr, n)).into(),
            Act::Lookup(inr, name) if !name.is_empty() => vec![Act::Lookup(*inr, name[1..].to_vec())],
            Act::Unlink(inr, name) if !name.is_empty() => vec![Act::Unlink(*inr, name[1..].to_vec())],
            Act::Mknod(inr, name, new) if !name.is_empty() => vec![Act::Mknod(*inr, name[1..].to_vec(), *new)],
            Act::Mkdir(inr, name, new) if !name.is_empty() => vec![Act::Mkdir(*inr, name[1..].to_vec(), *new)],
            _ => Vec::new(),
        }
    }
}

/// What a call answered, and the lent buffer.
#[derive(Clone, PartialEq)]
struct Told {
    out: Out,
    buf: Vec<u8>,
}

/// A record of a directory, as the Rust's closure gets it.
fn listed(buf: &mut Vec<u8>, inr: u64, kind: u64, name: &[u8]) {
    buf.extend(format!("{inr} {kind} {} ", name.len()).bytes());
    buf.extend(name);
}

/// All records from cursor 0 on: told as one buffer, empty beside a refusal.
fn iterate(mut next: impl FnMut(u64, &mut [u8]) -> Out) -> Told {
    let (mut cur, mut all) = (0, Vec::new());
    loop {
        let mut block = [LENT; 512];
        match next(cur, &mut block) {
            Err(number) => return Told { out: Err(number), buf: Vec::new() },
            Ok(w) if w[1] == 0 => return Told { out: Ok(Vec::new()), buf: all },
            Ok(w) => {
                listed(&mut all, w[0], w[1], &block[w[2] as usize..][..w[3] as usize]);
                cur = w[4];
            }
        }
    }
}

fn account(a: &mut Account, act: &Act, writable: bool) -> Told {
    if act.writes() && !writable {
        return Told { out: Err(30), buf: vec![LENT; act.room()] };
    }
    // as the Rust does it, a buffer is always long enough
    let mut buf = vec![LENT; if a.as_rust { 2 * a.card.bsize as usize } else { act.room() }];
    let out = match act {
        Act::Modify(inr, perm, owners, times) => a.inode_modify(*inr, *perm, *owners, times),
        Act::Truncate(inr, size) => a.inode_truncate(*inr, *size),
        Act::Write(inr, off, bytes) => a.inode_write(*inr, *off, bytes),
        Act::Lookup(inr, name) => a.dir_lookup(*inr, name),
        Act::Iterate(inr) if a.as_rust => return a.dir_iter(*inr).map_or_else(|n| Told { out: Err(n), buf: Vec::new() }, |all| {
            let mut buf = Vec::new();
            all.iter().for_each(|(i, k, n)| listed(&mut buf, *i as u64, *k as u64, n));
            Told { out: Ok(Vec::new()), buf }
        }),
        Act::Iterate(inr) => return iterate(|cur, block| a.dir_next(*inr, cur, block)),
        Act::Next(inr, cur, _) => a.dir_next(*inr, *cur, &mut buf),
        Act::AttrListLen(inr) => a.xattr_list_len(*inr),
        Act::AttrLen(inr, name) => a.xattr_len(*inr, name),
        Act::AttrList(inr, _) => a.xattr_list(*inr, &mut buf),
        Act::AttrRead(inr, name, _) => a.xattr_read(*inr, name, &mut buf),
        Act::Unlink(dir, name) => a.unlink(*dir, name),
        Act::Mknod(dir, name, new) => a.mknod(*dir, name, *new),
        Act::Mkdir(dir, name, new) => a.mkdir(*dir, name, *new),
        Act::Rename(dd, dname, sd, sname, replace) => a.rename(*dd, dname, *sd, sname, *replace),
        Act::Rmdir(dir, name) => a.rmdir(*dir, name),
    };
    Told { out, buf }
}

fn ask_port(image: &mut [u8], act: &Act, writable: bool) -> Told {
    let mut buf = vec![LENT; act.room()];
    let out = match act {
        Act::Modify(inr, perm, [uid, gid, flags], times) => {
            let times: Vec<u64> = times.iter().flat_map(|t| [t.0 as u64, t.1.into()]).collect();
            let wanted = hitchsnow::Wanted { perm: *perm, uid: *uid, gid: *gid, flags: *flags, times: times.try_into().expect("eight") };
            hitchsnow::inode_modify(image, writable, *inr, &wanted).map(|w| w.to_vec())
        }
        Act::Truncate(inr, size) => hitchsnow::inode_truncate(image, writable, *inr, *size).map(|()| Vec::new()),
        Act::Write(inr, off, bytes) => hitchsnow::inode_write(image, writable, *inr, *off, bytes).map(|n| vec![n]),
        Act::Lookup(inr, name) => hitchsnow::dir_lookup(image, *inr, name).map(|i| vec![i]),
        Act::Iterate(inr) => return iterate(|cur, block| hitchsnow::dir_next(image, *inr, cur, block).map(|w| w.to_vec())),
        Act::Next(inr, cur, _) => hitchsnow::dir_next(image, *inr, *cur, &mut buf).map(|w| w.to_vec()),
        Act::AttrListLen(inr) => hitchsnow::xattr_list_len(image, *inr).map(|n| vec![n]),
        Act::AttrLen(inr, name) => hitchsnow::xattr_len(image, *inr, name).map(|n| vec![n]),
        Act::AttrList(inr, _) => hitchsnow::xattr_list(image, *inr, &mut buf).map(|n| vec![n]),
        Act::AttrRead(inr, name, _) => hitchsnow::xattr_read(image, *inr, name, &mut buf).map(|(b, e)| vec![b, e]),
        Act::Unlink(dir, name) => hitchsnow::unlink(image, writable, *dir, name).map(|()| Vec::new()),
        Act::Mknod(dir, name, new) => hitchsnow::mknod(image, writable, *dir, name, &passed(new)).map(|w| w.to_vec()),
        Act::Mkdir(dir, name, new) => hitchsnow::mkdir(image, writable, *dir, name, &passed(new)).map(|w| w.to_vec()),
        Act::Rename(dd, dname, sd, sname, replace) => hitchsnow::rename(image, writable, (*dd, dname), (*sd, sname), *replace).map(|i| vec![i]),
        Act::Rmdir(dir, name) => hitchsnow::rmdir(image, writable, *dir, name).map(|()| Vec::new()),
    };
    Told { out, buf }
}

fn passed(new: &New) -> hitchsnow::New {
    hitchsnow::New { kind: new.kind, perm: new.perm, uid: new.uid, gid: new.gid, sec: new.now.0 as u64, nsec: new.now.1 }
}

fn time((s, ns): (i64, u32)) -> SystemTime {
    let long = Duration::new(s.unsigned_abs(), ns);
    if s < 0 { SystemTime::UNIX_EPOCH - long } else { SystemTime::UNIX_EPOCH + long }
}

/// What the Rust answered; PANIC where it panics, and no number where its error has none.
fn ask_rust(ufs: &mut Ufs<Image>, shared: &Shared, act: &Act) -> (Option<Out>, Vec<u8>) {
    shared.borrow_mut().begin(None);
    let inode = |inr: &u32| unsafe { InodeNum::new(*inr) };
    let mut bytes = Vec::new();
    let done = catch_unwind(AssertUnwindSafe(|| match act {
        Act::Modify(inr, perm, [uid, gid, flags], times) => {
            let [atime, mtime, ctime, btime] = times.map(time);
            let change = |a| rufs::InodeAttr { perm: *perm, uid: *uid, gid: *gid, flags: *flags, atime, mtime, ctime, btime, ..a };
            ufs.inode_modify(inode(inr), change).map(words)
        }
        Act::Truncate(inr, size) => ufs.inode_truncate(inode(inr), *size).map(|()| Vec::new()),
        Act::Write(inr, off, from) => ufs.inode_write(inode(inr), *off, from).map(|n| vec![n as u64]),
        Act::Lookup(inr, name) => ufs.dir_lookup(inode(inr), OsStr::from_bytes(name)).map(|i| vec![i.get64()]),
        Act::Iterate(inr) => {
            let all = ufs.dir_iter(inode(inr), |name, i, kind| {
                listed(&mut bytes, i.get64(), kind_number(kind), name.as_bytes());
                None::<()>
            });
            all.map(|_| Vec::new())
        }
        Act::Next(..) => unreachable!("not in the Rust"),
        Act::AttrListLen(inr) => ufs.xattr_list_len(inode(inr)).map(|n| vec![n.into()]),
        Act::AttrLen(inr, name) => ufs.xattr_len(inode(inr), OsStr::from_bytes(name)).map(|n| vec![n.into()]),
        Act::AttrList(inr, _) => ufs.xattr_list(inode(inr)).map(|text| {
            bytes = text;
            Vec::new()
        }),
        Act::AttrRead(inr, name, _) => ufs.xattr_read(inode(inr), OsStr::from_bytes(name)).map(|value| {
            bytes = value;
            Vec::new()
        }),
        Act::Unlink(dir, name) => ufs.unlink(inode(dir), OsStr::from_bytes(name)).map(|()| Vec::new()),
        Act::Mknod(dir, name, new) => {
            crate::clock::set(new.now);
            ufs.mknod(inode(dir), OsStr::from_bytes(name), kind_of(new.kind), new.perm, new.uid, new.gid).map(words)
        }
        Act::Mkdir(dir, name, new) => {
            crate::clock::set(new.now);
            ufs.mkdir(inode(dir), OsStr::from_bytes(name), new.perm, new.uid, new.gid).map(words)
        }
        Act::Rename(dd, dname, sd, sname, replace) => ufs.rename(inode(dd), OsStr::from_bytes(dname), inode(sd), OsStr::from_bytes(sname), *replace).map(|i| vec![i.get64()]),
        Act::Rmdir(dir, name) => ufs.rmdir(inode(dir), OsStr::from_bytes(name)).map(|()| Vec::new()),
    }));
    crate::clock::unset();
    match done {
        Ok(Ok(words)) => (Some(Ok(words)), bytes),
        // the two numbers that are others on Linux, for which this is built: ENOTEMPTY and ENOATTR
        Ok(Err(e)) => (e.raw_os_error().map(|n| Err(match n { 39 => 66, 61 => 87, n => n as u32 })), Vec::new()),
        Err(_) => (Some(Err(PANIC)), Vec::new()),
    }
}

/// An answer as the Rust gives it: of a lent buffer only the part that is told.
fn heard(act: &Act, told: &Told) -> (Out, Vec<u8>) {
    match (act, &told.out) {
        (Act::AttrList(..), Ok(w)) => (Ok(Vec::new()), told.buf[..w[0] as usize].to_vec()),
        (Act::AttrRead(..), Ok(w)) => (Ok(Vec::new()), told.buf[w[0] as usize..w[1] as usize].to_vec()),
        (Act::Iterate(_), Ok(_)) => (Ok(Vec::new()), told.buf.clone()),
        _ => (told.out.clone(), Vec::new()),
    }
}

fn outcome(out: &Option<Out>) -> String {
    match out {
        None => "fails without a number".into(),
        Some(Err(PANIC)) => "panics".into(),
        Some(Err(n)) => format!("answers {n}"),
        Some(Ok(_)) => "answers 0".into(),
    }
}

/// The figures of a run: how often each rule, and its smallest input.
#[derive(Default)]
pub struct Figures {
    asked: u64,
    count: BTreeMap<String, u64>,
    smallest: BTreeMap<String, ((usize, usize, usize, u64), String)>,
}

/// One card in the hands of both.
struct Pair {
    card: Card,
    rust: Shared,
    ufs: Ufs<Image>,
    port: Vec<u8>,
    /// The account's image, and one as before the call: between calls all four are the same.
    account: Vec<u8>,
    before: Vec<u8>,
}

impl Pair {
    fn new(bytes: &[u8]) -> Pair {
        let rust = image::shared(bytes.to_vec());
        rust.borrow_mut().logged = false;
        let ufs = open_rust(&rust, true).expect("opened before");
        Pair { card: Card::read(bytes), rust, ufs, port: bytes.to_vec(), account: bytes.to_vec(), before: bytes.to_vec() }
    }

    /// The call in both and in the account. What it fell under, or how they differ.
    fn compare(&mut self, act: &Act, writable: bool) -> Result<String, String> {
        let what = self.compare_once(act, writable)?;
        if act.writes() {
            self.before.copy_from_slice(&self.port);
        }
        Ok(what)
    }
    fn compare_once(&mut self, act: &Act, writable: bool) -> Result<String, String> {
        let mut a = Account { card: &self.card, image: &mut self.account, met: Vec::new(), as_rust: false, loose: false };
        let said = account(&mut a, act, writable);
        let met = a.met;
        let told = ask_port(&mut self.port, act, writable);
        let show = |out: &Option<Out>| match out {
            Some(Ok(w)) => format!("answers {w:?}"),
            other => outcome(other),
        };
        let parts = |a: &[u8], b: &[u8]| {
            let at: Vec<String> = (0..a.len()).filter(|&i| a[i] != b[i]).take(12).map(|i| format!("{i}: {:02x}, {:02x}", a[i], b[i])).collect();
            at.join("; ")
        };
        if told != said || self.port != self.account {
            return Err(format!("PORT AND ACCOUNT DIFFER\n  port {}\n  account {}\n  bytes of the image: {}\n  of the buffer: {}", show(&Some(told.out)), show(&Some(said.out)), parts(&self.port, &self.account), parts(&told.buf, &said.buf)));
        }
        if let Act::Next(..) = act {
            return Ok(format!("port and account, {}, number {}", act.name(), told.out.err().unwrap_or(0)));
        }
        let did = if writable {
            ask_rust(&mut self.ufs, &self.rust, act)
        } else {
            ask_rust(&mut open_rust(&self.rust, false).expect("opened before"), &self.rust, act)
        };
        let same = did.0.as_ref() == Some(&heard(act, &told).0) && did.1 == heard(act, &told).1 && self.rust.borrow().bytes == self.port;
        let number = told.out.clone().err().unwrap_or(0);
        let who = act.name();
        let Some(rule) = met.first() else {
            if !same {
                let held = self.rust.borrow();
                return Err(format!("RUST AND PORT DIFFER\n  Rust {}\n  port {}\n  bytes of the image (Rust, port): {}", show(&did.0), show(&Some(told.out)), parts(&held.bytes, &self.port)));
            }
            return Ok(format!("same, {who}, number {number}"));
        };
        if same {
            return Ok(format!("same, {who}, number {number}, though {rule:?}"));
        }
        let mut a = Account { card: &self.card, image: &mut self.before, met: Vec::new(), as_rust: true, loose: false };
        let expected = account(&mut a, act, writable);
        let loose = a.loose;
        let held = if loose { "which may do anything" } else { "as the rule has it" };
        let wanted = heard(act, &expected);
        let right = did.0.as_ref() == Some(&wanted.0) && did.1 == wanted.1 && self.rust.borrow().bytes == self.before;
        if !loose && !right {
            let bytes = self.rust.borrow();
            return Err(format!("THE RUST IS NOT AS THE RULES {met:?} HAVE IT\n  Rust {}\n  rules {}\n  port {}\n  bytes of the image (Rust, rules): {}", show(&did.0), show(&Some(expected.out)), show(&Some(told.out)), parts(&bytes.bytes, &self.before)));
        }
        self.rust.borrow_mut().bytes.copy_from_slice(&self.port);
        self.before.copy_from_slice(&self.port);
        self.ufs = open_rust(&self.rust, true).ok_or("the Rust does not open what the port left")?;
        Ok(format!("{rule:?}, {who}: the Rust {}, {held}; the port answers {number}", outcome(&did.0)))
    }
}

/// On a volume that is not sound every call answers 97 and leaves image and buffer.
pub fn all_refused(image: &[u8]) -> bool {
    let name = b"a".to_vec();
    let acts = [
        Act::Modify(2, 0, [0; 3], [(0, 0); 4]),
        Act::Truncate(4, 0),
        Act::Write(4, 0, vec![1]),
        Act::Lookup(2, name.clone()),
        Act::Iterate(2),
        Act::Next(2, 0, 512),
        Act::AttrListLen(2),
        Act::AttrLen(2, name.clone()),
        Act::AttrList(2, 512),
        Act::AttrRead(2, name, 512),
    ];
    let mut after = image.to_vec();
    acts.iter().all(|act| {
        [true, false].iter().all(|&writable| ask_port(&mut after, act, writable) == Told { out: Err(97), buf: vec![LENT; act.room()] })
    }) && after == image
}

/// What one call on a volume falls under, or how Rust, port and account differ.
pub fn under(image: &[u8], act: &Act) -> Result<String, String> {
    Pair::new(image).compare(act, true)
}

/// Whether these calls, the last of them, differ from a fresh card.
fn differs(base: &[u8], acts: &[(Act, bool)]) -> Option<String> {
    let mut pair = Pair::new(base);
    for (i, (act, writable)) in acts.iter().enumerate() {
        match pair.compare(act, *writable) {
            Ok(_) => (),
            Err(e) if i + 1 == acts.len() => return Some(e),
            Err(_) => return None,
        }
    }
    None
}

/// Fewer and smaller calls before a difference that is still there.
fn shrunk(base: &[u8], mut acts: Vec<(Act, bool)>) -> (Vec<(Act, bool)>, String) {
    let mut why = differs(base, &acts).unwrap_or("seen once, not again".into());
    let mut again = true;
    while again {
        again = false;
        for i in (0..acts.len().saturating_sub(1)).rev() {
            let mut fewer = acts.clone();
            fewer.remove(i);
            if let Some(e) = differs(base, &fewer) {
                (acts, why, again) = (fewer, e, true);
            }
        }
        for i in 0..acts.len() {
            for smaller in acts[i].0.smaller() {
                let mut fewer = acts.clone();
                fewer[i].0 = smaller;
                if fewer != acts {
                    if let Some(e) = differs(base, &fewer) {
                        (acts, why, again) = (fewer, e, true);
                        break;
                    }
                }
            }
        }
    }
    (acts, why)
}

// ---- what is asked

struct Asker<'a> {
    r: &'a mut Random,
    card: &'a Card,
    image: &'a mut Vec<u8>,
}

impl Asker<'_> {
    fn inode(&mut self) -> u32 {
        let all = self.card.ncg * self.card.ipg;
        match self.r.below(40) {
            0 => self.r.of(&[0, 1, all as u32 - 1, all as u32, all as u32 + 1, 1 << 31, u32::MAX]),
            1 => self.r.below(all) as u32,
            _ => {
                let used: Vec<u32> = (1..all as u32).filter(|&i| self.record(i).kind() != 0).collect();
                if used.is_empty() { 2 } else { self.r.of(&used) }
            }
        }
    }
    fn record(&self, inr: u32) -> Record<'_> {
        Record { card: self.card, image: self.image, at: Record::place(self.card, inr) }
    }
    fn known(&self, inr: u32) -> bool {
        inr != 0 && u64::from(inr) < self.card.ncg * self.card.ipg
    }
    fn directory(&mut self) -> u32 {
        let all = self.card.ncg * self.card.ipg;
        let dirs: Vec<u32> = (1..all as u32).filter(|&i| self.record(i).kind() == DIR).collect();
        if dirs.is_empty() || self.r.below(16) == 0 { self.inode() } else { self.r.of(&dirs) }
    }
    /// A size or an offset: beside the edges of the file, of blocks, fragments and zones; for a directory one that can be walked.
    fn offset(&mut self, inr: u32) -> u64 {
        let (bs, fs, p) = (self.card.bsize, self.card.fsize, self.card.bsize / 8);
        let (size, dir) = if self.known(inr) { (self.record(inr).size(), self.record(inr).kind() == DIR) } else { (0, false) };
        let zones = [12, 12 + p, 12 + 2 * p, 12 + p + p * p, 12 + p + p * p + p * p * p].map(|i| i * bs);
        let edge = match self.r.below(12) {
            0 => self.r.of(&zones),
            1 => self.r.of(&[1 << 32, 1 << 63, u64::MAX, 1 << 52]),
            2..=4 => size,
            5 => size / bs * bs,
            6 => fs * self.r.below(2 * self.card.frag),
            7 => bs * self.r.below(16),
            8 => bs * (12 + self.r.below(p * 3)),
            9 => self.r.of(&zones) + bs * self.r.below(p + 2),
            10 => self.r.below(size.max(1)),
            _ => self.r.below(bs * 14),
        };
        let at = match self.r.below(10) {
            0 => edge.wrapping_sub(1),
            1 => edge.wrapping_add(1),
            2 => edge.wrapping_sub(self.r.below(bs)),
            // a file of whole blocks, whose tail does not keep it from growing
            3..=6 => edge / bs * bs,
            _ => edge,
        };
        if dir { at % (1 << 16) / if self.r.below(4) == 0 { 1 } else { 512 } * 512 % (1 << 16) } else { at }
    }
    fn bytes(&mut self, n: usize) -> Vec<u8> {
        let fill = self.r.below(3);
        (0..n).map(|_| if fill == 0 { 0 } else { self.r.next() as u8 }).collect()
    }
    fn data(&mut self) -> Vec<u8> {
        let (bs, fs) = (self.card.bsize as usize, self.card.fsize as usize);
        let n = match self.r.below(8) {
            0 => self.r.of(&[0, 1, 119, 120, 512, fs - 1, fs, fs + 1, bs - 1, bs, bs + 1, 2 * bs, 3 * bs + 1]),
            1 => self.r.below(3 * bs as u64) as usize,
            4..=5 => bs * (1 + self.r.below(2) as usize),
            2..=3 => self.r.below(bs as u64) as usize,
            _ => self.r.below(700) as usize,
        };
        self.bytes(n)
    }
    /// A name that is there, or any of any length.
    fn name(&mut self, dir: u32) -> Vec<u8> {
        let mut there: Vec<Vec<u8>> = vec![b"a".to_vec(), b"l".to_vec(), b"d".to_vec(), b"b".to_vec(), b".".to_vec(), b"..".to_vec()];
        if self.known(dir) && self.record(dir).kind() == DIR {
            let mut a = Account { card: self.card, image: self.image, met: Vec::new(), as_rust: true, loose: false };
            there.extend(a.dir_iter(dir).unwrap_or_default().into_iter().map(|e| e.2));
        }
        if self.r.below(4) > 0 {
            there.retain(|n| n != b"." && n != b"..");
        }
        match self.r.below(10) {
            0..=5 => there[self.r.below(there.len() as u64) as usize].clone(),
            6 => {
                let mut name = there[self.r.below(there.len() as u64) as usize].clone();
                match self.r.below(3) {
                    0 => name.push(self.r.next() as u8),
                    1 => drop(name.pop()),
                    _ => name.iter_mut().for_each(|b| *b ^= 1),
                }
                name
            }
            7 => {
                let n = self.r.of(&[0, 1, 2, 3, 4, 254, 255, 256, 257, 300, 1000]);
                vec![self.r.of(b"abc/\0."); n]
            }
            8 => {
                let n = self.r.below(260) as usize;
                self.bytes(n)
            }
            _ => (0..1 + self.r.below(255)).map(|_| self.r.of(b"abcdefgh ~.\xff")).collect(),
        }
    }
    /// An inode with attributes, where there is one.
    fn bearer(&mut self) -> u32 {
        let all = self.card.ncg * self.card.ipg;
        let bearers: Vec<u32> = (1..all as u32).filter(|&i| self.record(i).kind() != 0 && word(self.image, Record::place(self.card, i) + 92) != 0).collect();
        if bearers.is_empty() || self.r.below(8) == 0 { self.inode() } else { self.r.of(&bearers) }
    }
    fn attribute(&mut self, inr: u32) -> Vec<u8> {
        let n = self.r.below(66) as usize;
        let mut text = vec![0; 4 * self.card.bsize as usize];
        let mut a = Account { card: self.card, image: self.image, met: Vec::new(), as_rust: true, loose: false };
        let long = a.xattr_list(inr, &mut text).map_or(0, |w| w[0] as usize);
        let there: Vec<&[u8]> = text[..long].split(|&b| b == 0).collect();
        match self.r.below(9) {
            6..=8 => self.r.of(&there).to_vec(),
            0 => vec![],
            1 => self.bytes(n),
            2 => [self.r.of(&[&b"user."[..], b"system.", b"", b"user"]), &vec![b'n'; n]].concat(),
            _ => self.r.of(&[&b"user.a"[..], b"user.bb", b"system.a", b"a", b"user.same", b"bb"]).to_vec(),
        }
    }
    fn times(&mut self) -> Times {
        loop {
            let times = [0; 4].map(|_| {
                let s = self.r.of(&[0, 1, -1, 1_700_000_000, -5, i64::MIN + 1, i64::MAX, i64::MIN]);
                (s, self.r.of(&[0, 1, 999_999_999, 5, 5, 5, 1_000_000_000, u32::MAX]))
            });
            // a time that SystemTime has not cannot be asked of the Rust
            if times.iter().all(|&t| carried(t).is_some()) {
                return times;
            }
        }
    }
    fn new_inode(&mut self) -> New {
        let now = (self.r.of(&[0, 1, 1_700_000_000, -7]), self.r.of(&[0, 1, 999_999_999]));
        New { kind: self.r.of(&[1, 2, 4, 6, 8, 8, 8, 10, 12]), perm: self.r.next() as u16, uid: self.r.below(3) as u32, gid: self.r.next() as u32, now }
    }
    fn act(&mut self) -> Act {
        let inr = self.inode();
        let room = [0, 1, 8, 511, 512, 513, self.card.bsize as usize, 2 * self.card.bsize as usize];
        match self.r.below(72) {
            60..=67 => {
                let (dd, sd) = (self.directory(), self.directory());
                let dd = if self.r.below(2) == 0 { sd } else { dd };
                Act::Rename(dd, self.name(dd), sd, self.name(sd), self.r.below(3) > 0)
            }
            68..=71 => {
                let dir = self.directory();
                Act::Rmdir(dir, self.name(dir))
            }
            40..=47 => {
                let dir = self.directory();
                Act::Mknod(dir, self.name(dir), self.new_inode())
            }
            48..=51 => {
                let dir = self.directory();
                Act::Mkdir(dir, self.name(dir), self.new_inode())
            }
            52..=59 => {
                let dir = self.directory();
                Act::Unlink(dir, self.name(dir))
            }
            0..=2 => Act::Modify(inr, self.r.next() as u16, [0; 3].map(|_| self.r.next() as u32 >> self.r.below(32)), self.times()),
            3..=11 => Act::Truncate(inr, self.offset(inr)),
            12..=23 => Act::Write(inr, self.offset(inr), self.data()),
            24..=27 => {
                let dir = self.directory();
                Act::Lookup(dir, self.name(dir))
            }
            28..=29 => Act::Iterate(self.directory()),
            30..=31 => {
                let dir = self.directory();
                let cur = match self.r.below(4) {
                    0 => self.r.of(&[0, 12, 24, 511, 512, 1 << 32, u64::MAX]),
                    1 => self.r.below(2048),
                    _ => 4 * self.r.below(300),
                };
                Act::Next(dir, cur, self.r.of(&room))
            }
            32 => Act::AttrListLen(inr),
            33..=34 => {
                let inr = self.bearer();
                Act::AttrLen(inr, self.attribute(inr))
            }
            35..=36 => Act::AttrList(self.bearer(), self.r.of(&room)),
            _ => {
                let inr = self.bearer();
                Act::AttrRead(inr, self.attribute(inr), self.r.of(&room))
            }
        }
    }
}

// ---- cards, changed

fn data_block(r: &mut Random, c: &Card, image: &[u8]) -> u64 {
    let g = r.below(c.ncg);
    let first = c.dblkno.div_ceil(c.frag);
    g * c.fpg + (first + r.below(c.ndblk(image, g) / c.frag - first)) * c.frag
}

fn address(r: &mut Random, c: &Card, image: &[u8]) -> u64 {
    let g = r.below(c.ncg);
    match r.below(16) {
        0..=4 => 0,
        5 => g * c.fpg + r.of(&[0, 1, c.sblkno, c.dblkno - 1, c.dblkno, c.ndblk(image, g) - 1, c.ndblk(image, g), c.fpg - 1]),
        6 => r.of(&[c.ncg * c.fpg, 1 << 32, 1 << 63, u64::MAX]),
        7 => g * c.fpg + c.dblkno + r.below(c.ndblk(image, g) - c.dblkno),
        _ => data_block(r, c, image),
    }
}

/// A record in the place of an inode, with lists under it.
fn new_record(r: &mut Random, c: &Card, image: &mut [u8], inr: u32) {
    let at = Record::place(c, inr);
    let p = c.bsize / 8;
    let kind = if r.below(4) == 0 { r.below(16) } else { r.of(&[4, 8, 8, 8, 8, 10]) };
    put_number(image, at, 2, kind << 12 | r.below(4096));
    put_number(image, at + 2, 2, r.of(&[0, 1, 1, 2, 2, 3, 65535]));
    let blocks = r.of(&[0, 1, 5, 12, 13, 12 + p, 12 + p + 5, 12 + p + p * p, 12 + p + p * p + p + 1]);
    let size = match r.below(6) {
        _ if kind == 4 => 512 * r.below(20) + if r.below(6) == 0 { r.below(512) } else { 0 },
        0 => r.next() >> r.below(64),
        1 => r.of(&[0, 1, 119, 120, 121, u64::MAX, 1 << 63]),
        _ => (blocks * c.bsize).wrapping_add(r.below(2 * c.bsize)).wrapping_sub(c.fsize),
    };
    put_number(image, at + 16, 8, size);
    put_number(image, at + 24, 8, r.of(&[0, 1, 8, 64, 1 << 20, 1 << 20, u64::MAX]));
    for t in 0..4 {
        put_number(image, at + 32 + t * 8, 8, r.of(&[1, 1, 1, 5, u64::MAX, 1 << 63]));
        put_number(image, at + 64 + t * 4, 4, r.of(&[1, 2, 2, 2, 2, 1_000_000_000]));
    }
    let mut below = Vec::new();
    for k in 0..15 {
        if k >= 12 {
            let lists: Vec<u64> = (0..2).map(|_| data_block(r, c, image)).collect();
            for &a in &lists {
                let few: Vec<u64> = (0..3).map(|_| address(r, c, image)).chain(below.iter().copied()).collect();
                let some = r.below(3);
                for i in 0..p as usize {
                    let e = if r.below(1 << (4 * some)) == 0 { r.of(&few) } else { 0 };
                    put_number(image, (a * c.fsize) as usize + i * 8, 8, e);
                }
            }
            below = lists;
        }
        let a = if k < 12 || r.below(6) == 0 { address(r, c, image) } else if r.below(2) == 0 { 0 } else { r.of(&below) };
        put_number(image, at + 112 + k * 8, 8, a);
    }
}

/// A directory's blocks with some of their numbers changed, or records of all kinds and lengths made anew.
fn new_directory(r: &mut Random, c: &Card, image: &mut [u8], inr: u32) {
    let at = Record::place(c, inr);
    let a = word(image, at + 112) as u64;
    let place = (a * c.fsize) as usize;
    if !c.run_ok(image, a, 1) || number(image, at, 2) >> 12 != 4 {
        return;
    }
    let all = c.ncg * c.ipg;
    if r.below(3) > 0 {
        let room = if r.below(2) == 0 { c.fsize as usize } else { 512 };
        for block in image[place..place + room].chunks_mut(512) {
            let mut pos = 0;
            while pos < 512 && r.below(30) > 0 {
                let n = r.of(&[1, 2, 3, 4, 5, 9, 60, 255, r.0 as u8]) as usize;
                let left = 512 - pos;
                let len = match r.below(12) {
                    0 => left,
                    1 => crate::account::smallest(n) + r.below(9) as usize,
                    _ => crate::account::smallest(n),
                };
                let len = if r.below(40) == 0 { r.below(left as u64 + 8) as usize } else { len.min(left) };
                let odd = if r.below(8) == 0 { r.below(16) } else { 8 };
                let (end, kind) = ((pos + 8 + n).min(512), r.of(&[1, 2, 4, 6, 8, 8, 8, 10, 12, 14, odd]));
                if left < 8 {
                    break;
                }
                put_number(block, pos, 4, if r.below(40) == 0 { r.below(3) * 99 } else { 1 + r.below(all - 1) });
                put_number(block, pos + 4, 2, len as u64);
                block[pos + 6] = kind as u8;
                block[pos + 7] = n as u8;
                let letter = r.of(b"abcx");
                block[pos + 8..end].fill(letter);
                pos += len.max(1);
            }
        }
        put_number(image, at + 16, 8, room as u64);
    }
    for _ in 0..r.below(3) {
        let (pos, to) = (r.below(c.fsize.min(1024)) as usize, r.of(&[0, 1, 4, 8, 12, 14, 255, r.0 as u8]));
        image[place + pos] = to;
    }
}

/// An inode with attributes; some of their numbers changed now and then.
fn new_attributes(r: &mut Random, c: &Card, image: &mut [u8], inr: u32) {
    let at = Record::place(c, inr);
    let mut area = Vec::new();
    let long = r.of(&[60, 60, 300, c.bsize as usize, c.bsize as usize + 100]);
    while area.len() < long {
        let n = r.of(&[1, 1, 2, 2, 4, 9, 64]);
        let letter = r.of(b"ab");
        let name = if n == 4 { b"same".to_vec() } else { vec![letter; n] };
        let value = r.of(&[0, 1, 5, 8, 9, 200, 2000.min(long)]);
        let (from, pad) = (((area.len() + 7 + n).div_ceil(8) * 8) - area.len(), (8 - value % 8) % 8);
        let len = from + value + pad;
        let mut one = vec![0; len];
        put_number(&mut one, 0, 4, len as u64);
        one[4] = r.of(&[0, 1, 1, 1, 2, 2, 3, 200]);
        one[5] = pad as u8;
        one[6] = n as u8;
        one[7..7 + n].copy_from_slice(&name);
        one[from..from + value].fill(r.next() as u8);
        area.extend(one);
    }
    area.truncate((2 * c.bsize as usize - 1).min(area.len()));
    area.extend(vec![0; r.of(&[0, 0, 3, 8, 40])]);
    for _ in 0..r.of(&[0, 0, 0, 1, 2]) {
        let i = r.below(area.len() as u64) as usize;
        area[i] = r.of(&[0, 1, 7, 8, 64, 65, 255]);
    }
    let mut size = area.len() as u64;
    for j in 0..2 {
        let a = data_block(r, c, image);
        let part: Vec<u8> = area.iter().copied().skip(j * c.bsize as usize).take(c.bsize as usize).collect();
        image[(a * c.fsize) as usize..][..part.len()].copy_from_slice(&part);
        put_number(image, at + 96 + j * 8, 8, if r.below(16) == 0 { address(r, c, image) } else { a });
    }
    if r.below(6) == 0 {
        size = r.of(&[0, 1, 6, 7, 8, 9, c.bsize - 1, c.bsize, c.bsize + 1, 2 * c.bsize - 1, 2 * c.bsize, (1 << 32) - 1]);
    }
    put_number(image, at + 92, 4, size);
}

/// The card as it is, or with something changed: what.
fn changed(r: &mut Random, image: &mut Vec<u8>) -> String {
    let c = Card::read(image);
    let mut what = Vec::new();
    if r.below(4) == 0 {
        return "as it is".into();
    }
    if r.below(3) == 0 {
        // few free blocks, so that some call finds none
        let keep = r.below(6);
        for g in 0..c.ncg {
            for f in c.dblkno..c.ndblk(image, g) {
                if r.below(6) >= keep {
                    let (at, bit) = c.bit(image, g, f);
                    image[at] &= !bit;
                }
            }
        }
        *image = rules::recounted(&c, image).0;
        what.push("few blocks free".to_string());
    }
    if r.below(3) == 0 {
        let inr = r.of(&[3, 4, 6, 7, 2, 5]);
        new_record(r, &c, image, inr);
        what.push(format!("inode {inr} made anew"));
    }
    if r.below(3) == 0 {
        let inr = r.of(&[2, 5]);
        new_directory(r, &c, image, inr);
        what.push(format!("directory {inr} made anew"));
    }
    for _ in 0..r.below(3) {
        let inr = r.of(&[2, 3, 4, 5, 6]);
        new_attributes(r, &c, image, inr);
        what.push(format!("attributes of {inr} made anew"));
    }
    if r.below(5) == 0 {
        let at = Record::place(&c, r.of(&[2, 3, 4, 5, 6]));
        let (o, w) = r.of(&[(0, 2), (16, 8), (24, 8), (112, 8), (120, 8), (208, 8), (216, 8), (224, 8), (92, 4)]);
        let v = r.of(&[0, 1, 119, 120, 511, 512, c.bsize, 1 << 15, 65535, u64::MAX]);
        let v = if o == 16 && number(image, at, 2) >> 12 == 4 { v % (1 << 16) } else { v };
        put_number(image, at + o, w, v & u64::MAX >> (64 - 8 * w));
        what.push(format!("{w} bytes at {o} of the record at {at} set to {v}"));
    }
    if r.below(8) == 0 {
        // the first free inode cannot be made, or one in use is marked free
        let (at, map) = (Record::place(&c, 7), c.group(0) + word(image, c.group(0) + 92) as usize);
        if r.below(2) == 0 {
            put_number(image, at + 80, 4, (1 << 32) - 1);
            what.push("inode 7's generation full".into());
        } else {
            image[map] &= !(1 << r.of(&[3, 4, 5, 6]));
            what.push("the bit of an inode clear".into());
        }
    }
    if r.below(8) == 0 {
        let (inr, n) = (r.of(&[2, 4, 5, 6]), r.of(&[0, 1, 2, 65534, 65535]));
        put_number(image, Record::place(&c, inr) + 2, 2, n);
        what.push(format!("inode {inr}'s link count {n}"));
    }
    if r.below(12) == 0 {
        let n = c.bsize as usize;
        image[..n].fill(0x11);
        what.push("fragment 0 not zeros".into());
    }
    if what.is_empty() { "as it is".into() } else { what.join(", ") }
}

/// Runs of calls on every card, `count` of them.
pub fn run(count: u64, seed: u64, cards: &[(String, Vec<u8>)]) -> Result<(), String> {
    println!("a smallest input for each rule:");
    crate::smallest::run(cards)?;
    let start = Instant::now();
    let mut figures = Figures::default();
    let mut round = 0;
    while figures.asked < count {
        for (name, bytes) in cards {
            // the larger the card, the fewer rounds
            if bytes.len() > 1 << 20 && round % (bytes.len() as u64 >> 19) != 0 {
                continue;
            }
            let own = seed.wrapping_mul(1_000_003).wrapping_add(round).wrapping_mul(31).wrapping_add(name.len() as u64 * 7 + bytes.len() as u64);
            let mut r = Random(own);
            let mut base = bytes.clone();
            let change = changed(&mut r, &mut base);
            if port::open(&base) != 0 {
                return Err(format!("{name} {change}: not sound"));
            }
            let mut pair = Pair::new(&base);
            let mut acts: Vec<(Act, bool)> = Vec::new();
            for _ in 0..r.of(&[1, 8, 30, 30]) * (1 + (bytes.len() >> 20)) {
                let act = Asker { r: &mut r, card: &pair.card, image: &mut pair.before }.act();
                let writable = !act.writes() || r.below(60) != 0;
                let huge = matches!(&act, Act::Lookup(i, _) | Act::Iterate(i) | Act::Next(i, ..) if pair.sparse(*i));
                if huge {
                    continue;
                }
                acts.push((act.clone(), writable));
                let what = match pair.compare(&act, writable) {
                    Ok(what) => what,
                    Err(_) => {
                        let long = acts.len();
                        let (acts, why) = shrunk(&base, acts);
                        let calls: Vec<String> = acts.iter().map(|(a, w)| format!("{a}{}", if *w { "" } else { " (read-only)" })).collect();
                        return Err(format!("card {name}, {change}, round {round}, {long} calls, shrunk to:\n  {}\n{why}", calls.join("\n  ")));
                    }
                };
                figures.asked += 1;
                *figures.count.entry(what.clone()).or_default() += 1;
                let key = (change.len(), acts.len(), act.to_string().len(), bytes.len() as u64);
                if figures.smallest.get(&what).is_none_or(|least| key < least.0) {
                    figures.smallest.insert(what, (key, format!("{name} {change}, call {}: {act}", acts.len())));
                }
                if act.writes() && port::open(&pair.port) != 0 {
                    return Err(format!("card {name}, {change}, round {round}: no longer sound after {act}"));
                }
            }
        }
        round += 1;
    }
    println!("{} calls that write, and on directories and attributes, compared on {} cards in {:.1} s", figures.asked, cards.len(), start.elapsed().as_secs_f64());
    for (what, n) in figures.count {
        println!("  {n} {what}: {}", figures.smallest[&what].1);
    }
    Ok(())
}

impl Pair {
    /// A directory that a walk would not get through in a while.
    fn sparse(&self, inr: u32) -> bool {
        inr != 0 && u64::from(inr) < self.card.ncg * self.card.ipg && Record { card: &self.card, image: &self.port, at: Record::place(&self.card, inr) }.size() > 1 << 20
    }
}
