//! The calls that read inodes, of the port beside the Rust's: the same number, words and buffer, on cards as they are and damaged.
use crate::image::{self, Image, Shared};
use crate::inode_rules::{parting, way, Ask, Record, Rust, Told, LENT};
use crate::rules::{put_number, Card};
use crate::{open_rust, Random};
use rufs::{InodeAttr, InodeNum, InodeType, Ufs};
use std::collections::BTreeMap;
use std::panic::{catch_unwind, AssertUnwindSafe};
use std::time::{Instant, SystemTime};

/// What the Rust did: it told something, failed without a number, or panicked. The buffer is what it left in any case.
#[derive(Clone, PartialEq, Debug)]
enum Did {
    Told(Told),
    Failed,
    Panicked,
}

/// A SystemTime as the Rust stores it: the seconds' sign is the time's.
fn pair(t: SystemTime) -> [u64; 2] {
    let signed = t.duration_since(SystemTime::UNIX_EPOCH);
    let (d, negative) = signed.map_or_else(|e| (e.duration(), true), |d| (d, false));
    [if negative { d.as_secs().wrapping_neg() } else { d.as_secs() }, d.subsec_nanos().into()]
}

pub fn kind_number(kind: InodeType) -> u64 {
    match kind {
        InodeType::NamedPipe => 1,
        InodeType::CharDevice => 2,
        InodeType::Directory => 4,
        InodeType::BlockDevice => 6,
        InodeType::RegularFile => 8,
        InodeType::Symlink => 10,
        InodeType::Socket => 12,
    }
}

pub fn kind_of(number: u16) -> InodeType {
    use InodeType::*;
    let all = [NamedPipe, CharDevice, Directory, BlockDevice, RegularFile, Symlink, Socket];
    all.into_iter().find(|&k| kind_number(k) == number.into()).expect("a kind's number")
}

pub fn words(a: InodeAttr) -> Vec<u64> {
    let first = [a.inr.get64(), kind_number(a.kind), a.perm.into(), a.size, a.blocks];
    let times = [a.atime, a.mtime, a.ctime, a.btime].map(pair).concat();
    let last = [a.uid, a.gid, a.gen, a.blksize, a.flags, a.kernflags, a.extsize].map(u64::from);
    [&first[..], &times, &[a.nlink.into()], &last].concat()
}

fn ask_rust(ufs: &mut Ufs<Image>, shared: &Shared, card: &Card, ask: Ask) -> Did {
    shared.borrow_mut().begin(None);
    let mut buf = vec![LENT; ask.room()];
    let inr = unsafe { InodeNum::new(ask.inr()) };
    let done = catch_unwind(AssertUnwindSafe(|| match ask {
        Ask::Attr(_) => ufs.inode_attr(inr).map(words),
        Ask::BlockSize(_, i) => ufs.reach_inode_get_block_size(inr, i).map(|n| vec![n]),
        Ask::Resolve(_, i) => ufs.reach_inode_read_block(inr, i).map(|()| vec![sought(&shared.borrow().bytes, &shared.borrow().seeks, card, inr, i)]),
        Ask::Read(_, off, _) => ufs.inode_read(inr, off, &mut buf).map(|n| vec![n as u64]),
    }));
    match done {
        Ok(Ok(words)) => Did::Told(Told { number: 0, words, buf }),
        Ok(Err(e)) => e.raw_os_error().map_or(Did::Failed, |n| Did::Told(Told { number: n as u32, words: Vec::new(), buf })),
        Err(_) => Did::Panicked,
    }
}

/// The address that the Rust went to: after the record and each list it seeks the block, unless there is a hole.
fn sought(image: &[u8], seeks: &[u64], card: &Card, inr: InodeNum, i: u64) -> u64 {
    let record = Record { card, image, at: Record::place(card, inr.get()) };
    let level = record.level(i).expect("the Rust answered") as usize;
    if seeks.len() == level + 2 { seeks[level + 1] / card.fsize } else { 0 }
}

fn ask_port(image: &[u8], ask: Ask) -> Told {
    let mut buf = vec![LENT; ask.room()];
    let done = match ask {
        Ask::Attr(inr) => hitchsnow::inode_attr(image, inr).map(|w| w.to_vec()),
        Ask::BlockSize(inr, i) => hitchsnow::inode_get_block_size(image, inr, i).map(|n| vec![n]),
        Ask::Resolve(inr, i) => hitchsnow::inode_resolve_block(image, inr, i).map(|a| vec![a]),
        Ask::Read(inr, off, _) => hitchsnow::inode_read(image, inr, off, &mut buf).map(|n| vec![n]),
    };
    match done {
        Ok(words) => Told { number: 0, words, buf },
        Err(number) => Told { number, words: Vec::new(), buf },
    }
}

/// On a volume that is not sound every reading call answers 97 and leaves the buffer.
pub fn all_refused(image: &[u8]) -> bool {
    let asks = [Ask::Attr(2), Ask::BlockSize(2, 0), Ask::Resolve(2, 0), Ask::Read(2, 0, 16)];
    asks.into_iter().all(|a| ask_port(image, a) == Told { number: 97, words: Vec::new(), buf: vec![LENT; a.room()] })
}

/// By what an input is smaller: whether a record was made anew, the image, the change's text, the inode, the offset or index, the buffer.
type Key = (bool, usize, usize, u32, u64, usize);

/// The figures of a run: how often each rule, and its smallest input.
#[derive(Default)]
pub struct Figures {
    asked: u64,
    count: BTreeMap<String, u64>,
    smallest: BTreeMap<String, (Key, String)>,
}

/// One card in the hands of both.
struct Pair<'a> {
    name: &'a str,
    shared: Shared,
    ufs: Ufs<Image>,
    card: Card,
    /// What was changed in the card.
    change: String,
}

impl Pair<'_> {
    fn compare(&mut self, ask: Ask, figures: &mut Figures) -> Result<(), String> {
        let did = ask_rust(&mut self.ufs, &self.shared, &self.card, ask);
        let held = self.shared.borrow();
        let told = ask_port(&held.bytes, ask);
        let rule = parting(&self.card, &held.bytes, ask, &told);
        let differ = |what: &str, rust: &dyn std::fmt::Debug, port: &Told| {
            Err(format!("card {}, {}, {ask:?}: {what}\n  Rust {rust:.200?}\n  port {} {:?}", self.name, self.change, port.number, port.words))
        };
        let (what, right) = match &rule {
            None if told.number == 0 => (format!("same, {}, number 0{}", ask.name(), way(&self.card, &held.bytes, ask)), did == Did::Told(told.clone())),
            None => (format!("same, {}, number {}", ask.name(), told.number), did == Did::Told(told.clone())),
            Some(p) => {
                let rust = match &did {
                    Did::Told(t) => format!("answers {}", t.number),
                    Did::Failed => "fails without a number".into(),
                    Did::Panicked => "panics".into(),
                };
                let kept = match &p.rust {
                    Rust::Panics => did == Did::Panicked,
                    Rust::Tells(t) => did == Did::Told(t.clone()),
                    Rust::Anything => true,
                };
                (format!("{}, {}: the Rust {rust}, the port answers {}", p.name, ask.name(), told.number), kept && told == p.port)
            }
        };
        if !right {
            return differ(&what, &did, &told);
        }
        figures.asked += 1;
        *figures.count.entry(what.clone()).or_default() += 1;
        let anew = self.change.ends_with("anew");
        let key = (anew, held.bytes.len(), self.change.len(), ask.inr(), ask.at(), ask.room());
        if figures.smallest.get(&what).is_none_or(|least| key < least.0) {
            figures.smallest.insert(what, (key, format!("{} {}, {ask:?}", self.name, self.change)));
        }
        Ok(())
    }

    /// What the inode's record says; for a number that is none of the volume, what the image's last bytes say.
    fn record<T>(&self, inr: u32, of: impl Fn(&Record) -> T) -> T {
        let held = self.shared.borrow();
        let at = Record::place(&self.card, inr).min(held.bytes.len() - 256);
        of(&Record { card: &self.card, image: &held.bytes, at })
    }

    /// The indexes beside each edge of the zones and of the file.
    fn indexes(&self, inr: u32) -> Vec<u64> {
        let p = self.card.bsize / 8;
        let (blocks, frags) = self.record(inr, |r| r.extent());
        let edges = [0, 12, 12 + p, 12 + p + p * p, 12 + p + p * p + p * p * p, 12 + 2 * p, blocks, blocks + frags, 1 << 32, 1 << 63];
        edges.iter().flat_map(|&e| [e.wrapping_sub(1), e, e.wrapping_add(1)]).collect()
    }

    /// The offsets beside each edge of a block or fragment, and of the file.
    fn offsets(&self, inr: u32) -> Vec<u64> {
        let (bs, fs) = (self.card.bsize, self.card.fsize);
        let size = self.record(inr, |r| r.size());
        let blocks = self.indexes(inr).into_iter().map(|i| i.wrapping_mul(bs));
        let edges = [0, fs, bs, size, size / bs * bs, size / fs * fs, 1 << 31, 1 << 32, 1 << 63];
        edges.into_iter().chain(blocks).flat_map(|e| [e.wrapping_sub(1), e, e.wrapping_add(1)]).collect()
    }

    fn lengths(&self) -> [usize; 12] {
        let (bs, fs) = (self.card.bsize as usize, self.card.fsize as usize);
        [0, 1, 2, 119, 120, fs - 1, fs, fs + 1, bs - 1, bs, bs + 1, 3 * bs + 5]
    }

    /// Every question at the edges; with `few`, some of them.
    fn ask_all(&mut self, inr: u32, r: &mut Random, few: bool, figures: &mut Figures) -> Result<(), String> {
        self.compare(Ask::Attr(inr), figures)?;
        for i in self.indexes(inr) {
            if !few || r.below(8) == 0 {
                self.compare(Ask::BlockSize(inr, i), figures)?;
                self.compare(Ask::Resolve(inr, i), figures)?;
            }
        }
        let size = self.record(inr, |r| r.size());
        for off in self.offsets(inr) {
            for room in self.lengths() {
                if off > size && r.below(16) != 0 {
                    continue;
                }
                if !few || r.below(64) == 0 {
                    self.compare(Ask::Read(inr, off, room), figures)?;
                }
            }
        }
        Ok(())
    }

    /// Some questions anywhere.
    fn ask_some(&mut self, inr: u32, r: &mut Random, figures: &mut Figures) -> Result<(), String> {
        let size = self.record(inr, |r| r.size());
        for _ in 0..6 {
            let (offsets, indexes) = (self.offsets(inr), self.indexes(inr));
            let off = match r.below(4) { 0 => r.of(&offsets), 1 => r.next() >> r.below(64), _ => r.below(size) };
            let i = match r.below(3) { 0 => r.of(&indexes), 1 => r.next() >> r.below(64), _ => r.below(size / self.card.bsize + 2) };
            let room = if r.below(2) == 0 { r.of(&self.lengths()) } else { r.below(4 * self.card.bsize) as usize };
            self.compare(Ask::Read(inr, off, room), figures)?;
            self.compare(Ask::Resolve(inr, i), figures)?;
            self.compare(Ask::BlockSize(inr, i), figures)?;
        }
        self.compare(Ask::Attr(inr), figures)
    }

    fn put(&self, at: usize, width: usize, n: u64) {
        put_number(&mut self.shared.borrow_mut().bytes, at, width, n);
    }

    fn put_back(&self, at: usize, bytes: &[u8]) {
        self.shared.borrow_mut().bytes[at..at + bytes.len()].copy_from_slice(bytes);
    }

    /// An address: none, of a data block or fragment, at an edge of the volume, or any number.
    fn address(&self, r: &mut Random) -> u64 {
        let c = &self.card;
        let (g, held) = (r.below(c.ncg), self.shared.borrow());
        let ndblk = c.ndblk(&held.bytes, g);
        match r.below(24) {
            0..=4 => 0,
            5 => g * c.fpg + r.of(&[0, 1, c.sblkno, c.sblkno - 1, c.dblkno - 1, c.dblkno, ndblk - c.frag, ndblk - 1, ndblk, c.fpg - 1]),
            6 => r.of(&[c.ncg * c.fpg - 1, c.ncg * c.fpg, 1 << 32, 1 << 63, u64::MAX, u64::MAX / c.fsize, u64::MAX / c.fsize + 1]),
            7 => r.next() >> r.below(64),
            8..=9 => g * c.fpg + c.dblkno + r.below(ndblk - c.dblkno),
            _ => {
                drop(held);
                self.data_block(r)
            }
        }
    }

    /// A new record in the place of an inode, and lists under it. The bytes that were there are handed back.
    fn damage(&mut self, inr: u32, r: &mut Random) -> Vec<(usize, Vec<u8>)> {
        let at = Record::place(&self.card, inr);
        let mut old = vec![(at, self.shared.borrow().bytes[at..at + 256].to_vec())];
        let p = self.card.bsize / 8;
        let blocks = r.of(&[0, 1, 12, 13, 12 + p, 12 + p + 5, 12 + p + p * p, 12 + p + p * p + p + 1, 12 + p + p * p + p * p * p, u64::MAX / self.card.bsize]);
        let size = match r.below(6) {
            0 => r.next() >> r.below(64),
            1 => r.of(&[0, 1, 119, 120, 121, u64::MAX, 1 << 63]),
            _ => (blocks * self.card.bsize).wrapping_add(r.below(2 * self.card.bsize)).wrapping_sub(self.card.fsize),
        };
        let kind = if r.below(4) == 0 { r.below(16) } else { r.of(&[4, 8, 8, 8, 10]) };
        self.put(at, 2, kind << 12 | r.below(4096));
        self.put(at + 16, 8, size);
        self.put(at + 24, 8, r.of(&[0, 1, 8, u64::MAX]));
        for time in 0..4 {
            let s = r.of(&[0, 1, -1, 1_700_000_000, i64::MIN, i64::MIN + 1, i64::MAX, i64::MAX - 4]);
            let ns = r.of(&[0, 1, 999_999_999, 999_999_999, 1_000_000_000, (1 << 32) - 1]);
            self.put(at + 32 + time * 8, 8, if r.below(3) == 0 { s as u64 } else { 1 });
            self.put(at + 64 + time * 4, 4, if r.below(3) == 0 { ns } else { 2 });
        }
        // under the last three addresses lists of blocks, of such lists, and of these; now and then something else
        let mut below = Vec::new();
        for k in 0..15 {
            if k >= 12 {
                let lists: Vec<u64> = (0..2).map(|_| self.data_block(r)).collect();
                old.extend(lists.iter().map(|&a| self.list(a, &below, r)));
                below = lists;
            }
            let a = if k < 12 || r.below(6) == 0 { self.address(r) } else { r.of(&below) };
            self.put(at + 112 + k * 8, 8, a);
        }
        self.change = format!("inode {inr} made anew");
        old
    }

    fn data_block(&self, r: &mut Random) -> u64 {
        let c = &self.card;
        let g = r.below(c.ncg);
        let first = c.dblkno.div_ceil(c.frag);
        g * c.fpg + (first + r.below(c.ndblk(&self.shared.borrow().bytes, g) / c.frag - first)) * c.frag
    }

    /// A list of some of these addresses and of some others; what was there.
    fn list(&self, a: u64, of: &[u64], r: &mut Random) -> (usize, Vec<u8>) {
        let at = (a * self.card.fsize) as usize;
        let old = self.shared.borrow().bytes[at..at + self.card.bsize as usize].to_vec();
        let few: Vec<u64> = (0..3).map(|_| self.address(r)).chain(of.iter().copied()).chain(of.iter().copied()).collect();
        (0..self.card.bsize as usize / 8).for_each(|k| self.put(at + k * 8, 8, r.of(&few)));
        (at, old)
    }

    /// Other bytes in every data fragment, so that no two are alike.
    fn noise(&self, r: &mut Random) {
        let c = &self.card;
        let mut held = self.shared.borrow_mut();
        for g in 0..c.ncg {
            let (from, to) = (g * c.fpg + c.dblkno, g * c.fpg + c.ndblk(&held.bytes, g));
            for word in held.bytes[(from * c.fsize) as usize..(to * c.fsize) as usize].chunks_mut(8) {
                word.copy_from_slice(&r.next().to_le_bytes()[..word.len()]);
            }
        }
    }

    /// One field of a record after the other, each value in it; the record is whole again afterwards.
    fn fields(&mut self, inr: u32, r: &mut Random, figures: &mut Figures) -> Result<(), String> {
        let at = Record::place(&self.card, inr);
        let whole = self.shared.borrow().bytes[at..at + 256].to_vec();
        let (bs, last) = (self.card.bsize, self.card.ncg * self.card.fpg);
        for (from, width) in [(0, 2), (2, 2), (4, 4), (8, 4), (12, 4), (16, 8), (24, 8), (32, 8), (40, 8), (48, 8), (56, 8), (64, 4), (68, 4), (72, 4), (76, 4)]
            .into_iter()
            .chain((80..96).step_by(4).map(|o| (o, 4)))
            .chain((96..240).step_by(8).map(|o| (o, 8)))
        {
            let modes = (0..16).map(|t| t << 12 | 0o644);
            let numbers = [0, 1, bs - 1, bs, 119, 120, 999_999_999, 1_000_000_000, last - 1, last, 1 << 31, (1 << 32) - 1, (1 << 63) - 1, 1 << 63, u64::MAX];
            for v in numbers.into_iter().chain(modes.take(if from == 0 { 16 } else { 0 })) {
                let v = v & u64::MAX >> (64 - 8 * width);
                self.put(at + from, width, v);
                self.change = format!("inode {inr}'s {width} bytes at {from} set to {v}");
                self.ask_all(inr, r, true, figures)?;
            }
            self.put_back(at, &whole);
        }
        self.change = "as it is".into();
        Ok(())
    }
}

/// All inodes of all cards as they are, each field of some of them, then `count` questions to inodes made anew.
pub fn run(count: u64, r: &mut Random, cards: &[(String, Vec<u8>)]) -> Result<(), String> {
    let start = Instant::now();
    let mut figures = Figures::default();
    let mut pairs = Vec::new();
    for (name, bytes) in cards {
        let shared = image::shared(bytes.clone());
        let ufs = open_rust(&shared, true).expect("opened before");
        let mut pair = Pair { name, shared, ufs, card: Card::read(bytes), change: "as it is".into() };
        let all = pair.card.ncg * pair.card.ipg;
        for inr in (0..all as u32 + 3).chain([1 << 20, 1 << 31, u32::MAX]) {
            let used = inr != 0 && u64::from(inr) < all && pair.record(inr, |r| r.kind()) != 0;
            pair.ask_all(inr, r, !used, &mut figures)?;
        }
        for inr in [2, 3, 4, 5, 6] {
            pair.fields(inr, r, &mut figures)?;
        }
        pairs.push(pair);
    }
    pairs.iter().for_each(|p| p.noise(r));
    let end = figures.asked + count;
    while figures.asked < end {
        for pair in &mut pairs {
            let inr = 1 + r.below(pair.card.ncg * pair.card.ipg - 1) as u32;
            let old = pair.damage(inr, r);
            for _ in 0..4 {
                pair.ask_some(inr, r, &mut figures)?;
            }
            for (at, bytes) in old.into_iter().rev() {
                pair.put_back(at, &bytes);
            }
        }
    }
    println!("{} questions to inodes compared on {} cards in {:.1} s", figures.asked, cards.len(), start.elapsed().as_secs_f64());
    for (what, n) in figures.count {
        println!("  {n} {what}: {}", figures.smallest[&what].1);
    }
    Ok(())
}
