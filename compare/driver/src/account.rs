//! The calls that change a volume and that read directories and attributes, told here once more from 01: what each answers and
//! leaves. The port is held to this account at every call, the Rust wherever no rule of `Parting` is met on the way.
use crate::inode_rules::{carried, DIR, LNK, REG};
use crate::rules::{long, number, put_number, word, Card, SUPER};

/// Where Rust and port may part. A call is counted under the first rule that its account meets.
#[derive(Clone, Copy, PartialEq, Eq, PartialOrd, Ord, Debug)]
pub enum Parting {
    /// inode 0, or one past the last: 22; the Rust looks at what lies there
    InodeOutOfRange,
    /// a name that is empty or has "/" or NUL is 22, one over 255 bytes 63, "." and ".." 22 where a name is made, renamed or
    /// given to rmdir; the Rust has the second and the last in mknod and mkdir alone
    NameRefused,
    /// a mode's type that no kind has: the Rust panics
    NamelessKind,
    /// a kind that has no size: 97 before the size is stored; the Rust stores it, then panics
    UnsizedKind,
    /// a link's text in its record: 5 before the size is stored; the Rust stores it, then answers 5
    TextAfterSize,
    /// a link under 120 bytes with blocks: text, which the Rust takes for addresses
    LinkText,
    /// the end of a write or the size asked for past the triple zone or 2^64: 27; the Rust stores the size, answers 22 or panics
    PastZones,
    /// a tail that has an address and needs more fragments: 45; the Rust takes the neighbour's
    HeldTail,
    /// a shrink that ends in the triple zone: 45; the Rust goes on
    TripleZone,
    /// a run outside a group or reserved: 97; the Rust reads or writes there
    RunOutside,
    /// a run to be given back that lies over two blocks: 97; the Rust gives it back or panics
    RunOverBlocks,
    /// a run to be given back that is free: 97; the Rust panics, some fragments given back
    AlreadyFree,
    /// the Rust asks `bno % bsize / fsize` and panics on a good block
    Alignment,
    /// a list of the part that goes, whose root is 0, while bytes of fragment 0 are not: the Rust takes these for the list
    ZeroRoot,
    /// the Rust asks the size of a block in the second zone at another index
    SecondZoneIndex,
    /// a count of blocks that would fall below 0 becomes 0; the Rust panics
    BlocksBelowZero,
    /// a new list: the Rust writes its length before the zeros
    ListPrefix,
    /// nanoseconds from 10^9 on, or a time that SystemTime has not: kept as given; the Rust carries them, or panics
    TimeCarried,
    /// a directory's size that is no multiple of 512: 97 at once; the Rust panics at its last block
    OddDirectory,
    /// a directory record whose length or type is none: 97; the Rust panics or goes on
    BadRecord,
    /// the lent buffer is too small: 34; the Rust has its own
    ShortBuffer,
    /// attributes whose lengths do not fit: 97; the Rust panics, fails or lists them
    BadAttribute,
    /// an attribute block at address 0: 97; the Rust reads fragment 0
    AttributeHole,
    /// an attribute area of two blocks or more: 97; the Rust panics
    AttributeArea,
    /// the work meets a block index past the end, or a kind without a size: 97, after the same stores as the Rust, which panics
    PanicsInWork,
    /// a name that is there: 17; the Rust makes it twice
    NameDoubled,
    /// rename without replace: the Rust looks the source up, and so always answers 17
    RenameKeeps,
    /// rename of a name onto itself: nothing; the Rust with replace loses the file
    OntoItself,
    /// a refusal that is judged before the first store; the Rust meets it later, or not at all
    JudgedFirst,
    /// a link count of 0 that must fall, or of 65,535 that must rise: 97, 31; the Rust panics
    CountEdge,
    /// a generation of 2^32 - 1, an inode bit that is clear: 97 after the same stores as the Rust, which panics
    InodePanics,
}

/// The Rust panics.
pub const PANIC: u32 = u32::MAX;

impl Parting {
    /// Whether the account, told as the Rust does it, says what the Rust does; if not, it may do anything.
    fn told(self) -> bool {
        use Parting::*;
        ![InodeOutOfRange, LinkText, TripleZone, RunOutside, RunOverBlocks, ZeroRoot, BadRecord, BadAttribute, AttributeHole].contains(&self)
    }
}

/// What a call answered: the words given, or the refusal's number.
pub type Out = Result<Vec<u64>, u32>;
pub type Work<T> = Result<T, u32>;

pub struct Account<'a> {
    pub card: &'a Card,
    pub image: &'a mut Vec<u8>,
    pub met: Vec<Parting>,
    /// Told as the Rust does it, where a rule says how.
    pub as_rust: bool,
    /// Told as the Rust does it, up to a place where nothing is said of the Rust.
    pub loose: bool,
}

/// What the work knows of a record once it is read.
#[derive(Clone, Copy)]
pub struct Shape {
    pub kind: u16,
    size: u64,
}

pub enum Rec {
    End,
    Bad,
    Used { inr: u32, len: usize, kind: u8, name: Vec<u8> },
}

pub fn smallest(n: usize) -> usize {
    (8 + n + 3) / 4 * 4
}

pub fn rec_at(block: &[u8], pos: usize) -> Rec {
    if block.len().saturating_sub(pos) < 8 {
        return Rec::End;
    }
    let (len, kind, n) = (number(block, pos + 4, 2) as usize, block[pos + 6], block[pos + 7] as usize);
    if len == 0 {
        return Rec::End;
    }
    if len < smallest(n) || pos + len > block.len() {
        return Rec::Bad;
    }
    let inr = word(block, pos);
    if inr == 0 {
        return Rec::End;
    }
    if ![1, 2, 4, 6, 8, 10, 12, 14].contains(&kind) {
        return Rec::Bad;
    }
    Rec::Used { inr, len, kind, name: block[pos + 8..pos + 8 + n].to_vec() }
}

pub fn put_rec(block: &mut [u8], pos: usize, inr: u32, len: usize, kind: u8, name: &[u8]) {
    block[pos..pos + len].fill(0);
    put_number(block, pos, 4, inr.into());
    put_number(block, pos + 4, 2, len as u64);
    block[pos + 6] = kind;
    block[pos + 7] = name.len() as u8;
    block[pos + 8..pos + 8 + name.len()].copy_from_slice(name);
}

/// Where a name stands: block, place, the record before, inode, and whether it stands alone in its block.
pub struct Spot {
    pub k: u64,
    pub pos: usize,
    pub prev: usize,
    pub inr: u32,
    pub alone: bool,
}

impl Account<'_> {
    pub fn meet(&mut self, p: Parting) {
        self.met.push(p);
        self.loose |= !p.told();
    }
    pub fn refuse<T>(&mut self, p: Parting, number: u32) -> Work<T> {
        self.meet(p);
        Err(number)
    }
    /// A refusal where the Rust panics.
    pub fn panics<T>(&mut self, p: Parting, number: u32) -> Work<T> {
        self.meet(p);
        Err(if self.as_rust { PANIC } else { number })
    }
    pub fn put(&mut self, at: usize, width: usize, n: u64) {
        put_number(self.image, at, width, n);
    }
    fn bytes_at(&self, a: u64) -> usize {
        (a * self.card.fsize) as usize
    }

    // ---- numbers and records

    pub fn place(&mut self, inr: u32) -> Work<usize> {
        if inr == 0 || u64::from(inr) >= self.card.ncg * self.card.ipg {
            return self.refuse(Parting::InodeOutOfRange, 22);
        }
        Ok(crate::inode_rules::Record::place(self.card, inr))
    }
    /// The place of an inode that is there.
    pub fn find(&mut self, inr: u32) -> Work<usize> {
        let at = self.place(inr)?;
        if self.kind(at) == 0 { Err(22) } else { Ok(at) }
    }
    pub fn kind(&self, at: usize) -> u16 {
        (number(self.image, at, 2) >> 12) as u16
    }
    pub fn size(&self, at: usize) -> u64 {
        long(self.image, at + 16) as u64
    }
    pub fn blocks(&self, at: usize) -> u64 {
        long(self.image, at + 24) as u64
    }
    pub fn nlink(&self, at: usize) -> u64 {
        number(self.image, at + 2, 2)
    }
    pub fn shape(&self, at: usize) -> Shape {
        Shape { kind: self.kind(at), size: self.size(at) }
    }
    pub fn named(kind: u16) -> bool {
        [1, 2, DIR, 6, REG, LNK, 12].contains(&kind)
    }
    fn sized(kind: u16) -> bool {
        [REG, DIR, LNK].contains(&kind)
    }
    pub fn in_place(&self, at: usize) -> bool {
        self.kind(at) == LNK && (self.size(at) < 120 || self.blocks(at) == 0)
    }
    pub fn extent(&self, size: u64) -> (u64, u64) {
        (size / self.card.bsize, (size % self.card.bsize).div_ceil(self.card.fsize))
    }
    pub fn keep(&self, size: u64) -> u64 {
        let (b, f) = self.extent(size);
        b + u64::from(f > 0)
    }
    pub fn zone(&self, level: u32) -> u64 {
        let p = self.card.bsize / 8;
        12 + (1..level).map(|l| p.pow(l)).sum::<u64>()
    }
    pub fn limit(&self) -> u64 {
        self.zone(4) * self.card.bsize
    }
    fn block_size(&self, s: Shape, i: u64) -> Work<u64> {
        let (b, f) = self.extent(s.size);
        if !Self::sized(s.kind) {
            Err(97)
        } else if i < b {
            Ok(self.card.bsize)
        } else if i < b + f {
            Ok(f * self.card.fsize)
        } else {
            Err(22)
        }
    }
    pub fn attr(&self, inr: u32, at: usize) -> Vec<u64> {
        let n = |o: usize, w: usize| number(self.image, at + o, w);
        vec![
            inr.into(), n(0, 2) >> 12, n(0, 2) & 0xFFF, n(16, 8), n(24, 8), n(32, 8), n(68, 4), n(40, 8), n(64, 4), n(48, 8), n(72, 4),
            n(56, 8), n(76, 4), n(2, 2), n(4, 4), n(8, 4), n(80, 4), n(12, 4), n(88, 4), n(84, 4), n(92, 4),
        ]
    }

    // ---- mapping

    fn run_ok(&self, a: u64, n: u64) -> bool {
        self.card.run_ok(self.image, a, n)
    }
    fn entry(&self, list: u64, i: u64) -> u64 {
        long(self.image, self.bytes_at(list) + i as usize * 8) as u64
    }
    /// The level of the zone, and the place under its root.
    fn level(&self, i: u64) -> Option<(u32, u64)> {
        if i < 12 {
            return Some((0, i));
        }
        (1..=3).find(|&l| i < self.zone(l + 1)).map(|l| (l, i - self.zone(l)))
    }
    fn root(&self, at: usize, level: u32) -> usize {
        at + 208 + (level as usize - 1) * 8
    }
    fn list_ok(&mut self, a: u64) -> Work<()> {
        if self.run_ok(a, self.card.frag) { Ok(()) } else { self.refuse(Parting::RunOutside, 97) }
    }
    fn addr_of(&mut self, at: usize, i: u64) -> Work<u64> {
        let Some((level, mut rest)) = self.level(i) else { return Err(22) };
        let p = self.card.bsize / 8;
        if level == 0 {
            return Ok(long(self.image, at + 112 + i as usize * 8) as u64);
        }
        let mut a = long(self.image, self.root(at, level)) as u64;
        for below in (0..level).rev() {
            if a == 0 {
                return Ok(0);
            }
            self.list_ok(a)?;
            a = self.entry(a, rest / p.pow(below));
            rest %= p.pow(below);
        }
        Ok(a)
    }
    /// Address and size of a block that the work asks for; every refusal is 97.
    fn run_of(&mut self, at: usize, i: u64) -> Work<(u64, u64)> {
        let s = self.shape(at);
        let Ok(n) = self.block_size(s, i) else { return self.panics(Parting::PanicsInWork, 97) };
        let (b, f) = self.extent(s.size);
        if self.as_rust && i >= b && (b * self.card.bsize).checked_add(f * self.card.fsize).is_none() {
            // the tail's end, which the Rust adds up, is 2^64
            return self.panics(Parting::PastZones, 97);
        }
        if self.in_place(at) {
            return if self.as_rust && self.blocks(at) == 0 { Err(5) } else { self.refuse(Parting::LinkText, 97) };
        }
        if self.level(i).is_none() {
            return self.refuse(Parting::PastZones, if self.as_rust { 22 } else { 97 });
        }
        let a = self.addr_of(at, i)?;
        if a != 0 && !self.run_ok(a, n / self.card.fsize) {
            return self.refuse(Parting::RunOutside, 97);
        }
        Ok((a, n))
    }
    pub fn read_at(&mut self, at: usize, off: u64, len: u64) -> Work<Vec<u8>> {
        let mut bytes = Vec::new();
        while (bytes.len() as u64) < len {
            let o = off + bytes.len() as u64;
            let (a, n) = self.run_of(at, o / self.card.bsize)?;
            let from = o % self.card.bsize;
            let num = (n - from).min(len - bytes.len() as u64) as usize;
            match a {
                0 => bytes.extend(vec![0; num]),
                _ => bytes.extend_from_slice(&self.image[self.bytes_at(a) + from as usize..][..num]),
            }
        }
        Ok(bytes)
    }

    // ---- giving out and taking back

    pub fn add(&mut self, at: usize, width: usize, n: i64) {
        let sum = (number(self.image, at, width) as i64).wrapping_add(n);
        put_number(self.image, at, width, sum as u64);
    }
    pub fn give_block(&mut self) -> Work<u64> {
        let c = self.card;
        for g in 0..c.ncg {
            if word(self.image, c.group(g) + 28) as i32 <= 0 {
                continue;
            }
            for b in (0..c.ndblk(self.image, g)).step_by(c.frag as usize) {
                if b + c.frag <= c.ndblk(self.image, g) && (b..b + c.frag).all(|f| c.free(self.image, g, f)) {
                    for f in b..b + c.frag {
                        let (at, bit) = c.bit(self.image, g, f);
                        self.image[at] &= !bit;
                    }
                    self.add(c.group(g) + 28, 4, -1);
                    self.add(SUPER + 1016, 8, -1);
                    return Ok(g * c.fpg + b);
                }
            }
        }
        Err(28)
    }
    fn give_zeroed(&mut self) -> Work<u64> {
        let a = self.give_block()?;
        self.meet(Parting::ListPrefix);
        let (at, n) = (self.bytes_at(a), self.card.bsize as usize);
        self.image[at..at + n].fill(0);
        if self.as_rust {
            // the list's length, then the zeros, so that they reach past it
            if at + n + 8 > self.image.len() {
                self.loose = true;
                return Err(97);
            }
            self.put(at, 8, n as u64);
            self.image[at + n..at + n + 8].fill(0);
        }
        Ok(a)
    }
    fn take_back(&mut self, a: u64, size: u64) -> Work<()> {
        let c = self.card;
        if a == 0 {
            return Ok(());
        }
        let n = size / c.fsize;
        if self.as_rust && a % c.bsize / c.fsize + n > c.frag {
            return self.panics(Parting::Alignment, 97);
        }
        if a % c.frag + n > c.frag {
            return self.refuse(Parting::RunOverBlocks, 97);
        }
        if !self.run_ok(a, n) {
            return self.refuse(Parting::RunOutside, 97);
        }
        let (g, f) = (a / c.fpg, a % c.fpg);
        if let Some(first) = (f..f + n).find(|&f| c.free(self.image, g, f)) {
            // the Rust gives fragments back one by one, up to the free one
            for f in f..if self.as_rust && n < c.frag { first } else { f } {
                let (at, bit) = c.bit(self.image, g, f);
                self.image[at] |= bit;
            }
            return self.panics(Parting::AlreadyFree, 97);
        }
        if a % c.bsize / c.fsize + n > c.frag {
            self.meet(Parting::Alignment);
        }
        for f in f..f + n {
            let (at, bit) = c.bit(self.image, g, f);
            self.image[at] |= bit;
        }
        let block = f / c.frag * c.frag;
        let whole = block + c.frag <= c.ndblk(self.image, g) && (block..block + c.frag).all(|f| c.free(self.image, g, f));
        let loose = if n == c.frag { 0 } else { n as i64 - if whole { c.frag as i64 } else { 0 } };
        self.add(c.group(g) + 28, 4, whole.into());
        self.add(c.group(g) + 36, 4, loose);
        self.add(SUPER + 1016, 8, whole.into());
        self.add(SUPER + 1032, 8, loose);
        Ok(())
    }

    // ---- writing

    pub fn held_tail(&mut self, at: usize, new: u64) -> Work<()> {
        let s = self.shape(at);
        if new <= s.size || !Self::sized(s.kind) || self.in_place(at) {
            return Ok(());
        }
        let (b, f) = self.extent(s.size);
        let need = if new / self.card.bsize > b { self.card.frag } else { (new % self.card.bsize).div_ceil(self.card.fsize) };
        if f == 0 || f == self.card.frag || need <= f {
            return Ok(());
        }
        match self.addr_of(at, b) {
            _ if self.as_rust => Ok(()),
            Ok(0) => Ok(()),
            Ok(_) => self.refuse(Parting::HeldTail, 45),
            Err(22) => self.refuse(Parting::PastZones, 97),
            Err(_) => self.refuse(Parting::RunOutside, 97),
        }
    }
    fn set_block(&mut self, at: usize, i: u64, a: u64, held: u64) -> Work<()> {
        let Some((level, mut rest)) = self.level(i) else { return Err(97) };
        let p = self.card.bsize / 8;
        if level == 0 {
            self.put(at + 112 + i as usize * 8, 8, a);
            self.put(at + 24, 8, held);
            return Ok(());
        }
        let root = self.root(at, level);
        let mut r = long(self.image, root) as u64;
        let fresh = r == 0;
        if fresh {
            r = self.give_zeroed()?;
        }
        let top = r;
        for below in (1..level).rev() {
            self.list_ok(r)?;
            let place = self.bytes_at(r);
            let mut whole = self.image[place..place + self.card.bsize as usize].to_vec();
            let d = (rest / p.pow(below)) as usize * 8;
            rest %= p.pow(below);
            let mut e = long(&whole, d) as u64;
            if e == 0 {
                e = self.give_zeroed()?;
                put_number(&mut whole, d, 8, e);
                self.image[place..place + whole.len()].copy_from_slice(&whole);
            }
            r = e;
        }
        self.list_ok(r)?;
        let place = self.bytes_at(r) + rest as usize * 8;
        self.put(place, 8, a);
        if fresh {
            self.put(root, 8, top);
            self.put(at + 24, 8, held);
        }
        Ok(())
    }
    /// The work of a write: the size, then block after block.
    pub fn write_at(&mut self, at: usize, off: u64, data: &[u8]) -> Work<()> {
        let size = self.size(at).max(off + data.len() as u64);
        self.put(at + 16, 8, size);
        let mut held = self.blocks(at);
        let mut done = 0;
        while done < data.len() {
            let o = off + done as u64;
            let (i, from) = (o / self.card.bsize, (o % self.card.bsize) as usize);
            let (a, n) = self.run_of(at, i)?;
            let num = (n as usize - from).min(data.len() - done);
            if a != 0 {
                let place = self.bytes_at(a) + from;
                self.image[place..place + num].copy_from_slice(&data[done..done + num]);
            } else {
                let a = self.give_block()?;
                let Some(more) = held.checked_add(self.card.bsize / 512) else { return self.panics(Parting::PanicsInWork, 97) };
                held = more;
                self.set_block(at, i, a, held)?;
                let place = self.bytes_at(a);
                self.image[place..place + n as usize].fill(0);
                self.image[place + from..place + from + num].copy_from_slice(&data[done..done + num]);
            }
            done += num;
        }
        Ok(())
    }
    pub fn inode_write(&mut self, inr: u32, off: u64, data: &[u8]) -> Out {
        let at = self.find(inr)?;
        let kind = self.kind(at);
        if self.as_rust {
            if off.checked_add(data.len() as u64).is_none() {
                return self.panics(Parting::PastZones, 27);
            }
            self.write_at(at, off, data)?;
            return Ok(vec![data.len() as u64]);
        }
        if !data.is_empty() {
            if self.in_place(at) {
                let p = if self.blocks(at) == 0 { Parting::TextAfterSize } else { Parting::LinkText };
                return self.refuse(p, 5);
            }
            if !Self::sized(kind) {
                return self.refuse(if Self::named(kind) { Parting::UnsizedKind } else { Parting::NamelessKind }, 97);
            }
        }
        match off.checked_add(data.len() as u64) {
            Some(end) if end <= self.limit() => self.held_tail(at, end)?,
            _ => return self.refuse(Parting::PastZones, 27),
        }
        self.write_at(at, off, data)?;
        Ok(vec![data.len() as u64])
    }

    // ---- shrinking

    pub fn free_at(&mut self, s: Shape, i: u64, a: u64, held: Option<&mut u64>) -> Work<()> {
        if a == 0 {
            return Ok(());
        }
        let Ok(n) = self.block_size(s, i) else { return self.panics(Parting::PanicsInWork, 97) };
        self.take_back(a, n)?;
        if let Some(held) = held {
            if *held < n / 512 {
                self.meet(Parting::BlocksBelowZero);
                if self.as_rust {
                    return Err(PANIC);
                }
            }
            *held = held.saturating_sub(n / 512);
        }
        Ok(())
    }
    fn list(&self, a: u64) -> Vec<u64> {
        (0..self.card.bsize / 8).map(|i| self.entry(a, i)).collect()
    }
    pub fn free_tree(&mut self, s: Shape, level: u32, a: u64, held: &mut u64) -> Work<()> {
        if a == 0 {
            return Ok(());
        }
        self.list_ok(a)?;
        for (i, e) in self.list(a).into_iter().enumerate() {
            if level == 1 { self.free_at(s, i as u64, e, Some(held))? } else { self.free_tree(s, level - 1, e, held)? }
        }
        self.take_back(a, self.card.bsize)
    }
    /// A list whose address is 0 reads as zeros; the Rust reads, and writes back, fragment 0.
    fn zero_root(&mut self) {
        if self.image[..self.card.bsize as usize].iter().any(|&b| b != 0) {
            self.meet(Parting::ZeroRoot);
        }
    }
    /// The 15 addresses and the blocks held, once the part past `new` is given back.
    fn shrink(&mut self, at: usize, new: u64) -> Work<(Vec<u64>, u64)> {
        let s = self.shape(at);
        let (p, keep) = (self.card.bsize / 8, self.keep(new));
        let mut addresses: Vec<u64> = (0..15).map(|k| long(self.image, at + 112 + k * 8) as u64).collect();
        let mut held = self.blocks(at);
        self.free_tree(s, 3, std::mem::take(&mut addresses[14]), &mut held)?;
        if keep >= self.zone(2) {
            let u = keep - self.zone(2);
            let (o1, o2, r) = (u / p, u % p, addresses[13]);
            if r == 0 {
                self.zero_root();
                return Ok((addresses, held));
            }
            self.list_ok(r)?;
            let mut whole = self.list(r);
            let below = whole[o1 as usize];
            if below == 0 {
                self.zero_root();
            } else {
                self.list_ok(below)?;
                let mut under = self.list(below);
                for i in o2..p {
                    let a = std::mem::take(&mut under[i as usize]);
                    let (ours, theirs) = (self.zone(2) + o1 * p + i, self.zone(2) + o2 * p + i);
                    if a != 0 && self.block_size(s, ours) != self.block_size(s, theirs) {
                        self.meet(Parting::SecondZoneIndex);
                    }
                    self.free_at(s, if self.as_rust { theirs } else { ours }, a, Some(&mut held))?;
                }
                self.put_list(below, &under);
            }
            for e in &mut whole[o1 as usize + 1..] {
                self.free_tree(s, 1, std::mem::take(e), &mut held)?;
            }
            self.put_list(r, &whole);
            return Ok((addresses, held));
        }
        self.free_tree(s, 2, std::mem::take(&mut addresses[13]), &mut held)?;
        if keep >= 12 {
            let r = addresses[12];
            if r == 0 {
                self.zero_root();
                return Ok((addresses, held));
            }
            self.list_ok(r)?;
            let mut whole = self.list(r);
            for i in keep - 12..p {
                self.free_at(s, 12 + i, std::mem::take(&mut whole[i as usize]), Some(&mut held))?;
            }
            self.put_list(r, &whole);
            return Ok((addresses, held));
        }
        self.free_tree(s, 1, std::mem::take(&mut addresses[12]), &mut held)?;
        for i in keep..12 {
            self.free_at(s, i, std::mem::take(&mut addresses[i as usize]), Some(&mut held))?;
        }
        Ok((addresses, held))
    }
    fn put_list(&mut self, a: u64, entries: &[u64]) {
        let place = self.bytes_at(a);
        for (i, &e) in entries.iter().enumerate() {
            self.put(place + i * 8, 8, e);
        }
    }
    pub fn truncate_work(&mut self, at: usize, new: u64) -> Work<()> {
        if new < self.size(at) {
            let (addresses, held) = self.shrink(at, new)?;
            for (k, a) in addresses.into_iter().enumerate() {
                self.put(at + 112 + k * 8, 8, a);
            }
            self.put(at + 24, 8, held);
        }
        self.put(at + 16, 8, new);
        Ok(())
    }
    pub fn inode_truncate(&mut self, inr: u32, new: u64) -> Out {
        let at = self.find(inr)?;
        let size = self.size(at);
        if self.as_rust {
            if self.kind(at) == LNK && self.blocks(at) == 0 && new < size {
                return Err(22);
            }
            if new < size && self.keep(new) >= self.zone(3) {
                return self.refuse(Parting::TripleZone, 45);
            }
            self.truncate_work(at, new)?;
            return Ok(Vec::new());
        }
        if self.in_place(at) && new < size {
            if self.blocks(at) != 0 {
                self.meet(Parting::LinkText);
            }
            return Err(22);
        }
        if new > self.limit() {
            return self.refuse(Parting::PastZones, 27);
        }
        if new < size && self.keep(new) >= self.zone(3) {
            return self.refuse(Parting::TripleZone, 45);
        }
        self.held_tail(at, new)?;
        self.truncate_work(at, new)?;
        Ok(Vec::new())
    }

    // ---- the record

    pub fn inode_modify(&mut self, inr: u32, perm: u16, owners: [u32; 3], times: &[(i64, u32); 4]) -> Out {
        let at = self.find(inr)?;
        if !Self::named(self.kind(at)) {
            return self.panics(Parting::NamelessKind, 97);
        }
        let stored = [(32, 68), (40, 64), (48, 72), (56, 76)];
        for (s, ns) in stored {
            let old = (long(self.image, at + s), word(self.image, at + ns));
            if carried(old) != Some(old) {
                self.meet(Parting::TimeCarried);
                if self.as_rust && carried(old).is_none() {
                    return Err(PANIC);
                }
            }
        }
        // the Rust takes the seconds' sign off once more as it stores them
        if self.as_rust && times.iter().any(|&t| carried(t).is_some_and(|(s, _)| s == i64::MIN)) {
            return Err(PANIC);
        }
        let mode = number(self.image, at, 2) & 0xF000 | u64::from(perm & 0xFFF);
        self.put(at, 2, mode);
        self.put(at + 4, 4, owners[0].into());
        self.put(at + 8, 4, owners[1].into());
        self.put(at + 88, 4, owners[2].into());
        for ((s, ns), &given) in stored.into_iter().zip(times) {
            if carried(given) != Some(given) {
                self.meet(Parting::TimeCarried);
            }
            let (sec, nsec) = if self.as_rust { carried(given).expect("asked of the Rust") } else { given };
            self.put(at + s, 8, sec as u64);
            self.put(at + ns, 4, nsec.into());
        }
        Ok(self.attr(inr, at))
    }

    // ---- directories

    /// The place of a directory that can be walked: kind, then size.
    pub fn dir(&mut self, inr: u32) -> Work<usize> {
        let at = self.find(inr)?;
        match self.kind(at) {
            DIR => Ok(at),
            k if Self::named(k) => Err(20),
            _ => self.panics(Parting::NamelessKind, 20),
        }
    }
    fn whole_blocks(&mut self, at: usize) -> Work<u64> {
        let size = self.size(at);
        match size % 512 {
            0 => Ok(size / 512),
            // the Rust finds what stands before the last block
            _ if self.as_rust => Ok(size / 512 + 1),
            _ => self.refuse(Parting::OddDirectory, 97),
        }
    }
    /// The records of a directory in order, up to the first for which `f` answers.
    pub fn walk<T>(&mut self, at: usize, mut f: impl FnMut(&[u8], u64, usize, u32, usize, u8, &[u8]) -> Option<T>) -> Work<Option<T>> {
        for k in 0..self.whole_blocks(at)? {
            let block = self.read_at(at, 512 * k, 512.min(self.size(at) - 512 * k))?;
            if block.len() < 512 {
                return self.panics(Parting::OddDirectory, 97);
            }
            let mut pos = 0;
            loop {
                match rec_at(&block, pos) {
                    Rec::End => break,
                    Rec::Bad => return self.refuse(Parting::BadRecord, 97),
                    Rec::Used { inr, len, kind, name } => {
                        if let Some(x) = f(&block, k, pos, inr, len, kind, &name) {
                            return Ok(Some(x));
                        }
                        pos += len;
                    }
                }
            }
        }
        Ok(None)
    }
    pub fn lookup(&mut self, at: usize, name: &[u8]) -> Work<Option<u32>> {
        self.walk(at, |_, _, _, inr, _, kind, n| (kind != 14 && n == name).then_some(inr))
    }
    pub fn names(&mut self, names: &[&[u8]], made: bool) -> Work<()> {
        let bad = |n: &[u8]| n.is_empty() || n.contains(&b'/') || n.contains(&0) || made && (n == b"." || n == b"..");
        if names.iter().any(|n| bad(n)) {
            return self.refuse(Parting::NameRefused, 22);
        }
        if names.iter().any(|n| n.len() > 255) {
            return self.refuse(Parting::NameRefused, 63);
        }
        Ok(())
    }
    pub fn dir_lookup(&mut self, inr: u32, name: &[u8]) -> Out {
        if !self.as_rust {
            self.names(&[name], false)?;
        }
        let at = self.dir(inr)?;
        self.lookup(at, name)?.map(|i| vec![i.into()]).ok_or(2)
    }
    /// inode, kind, where the name lies, its length, and the cursor behind; no words at the end.
    pub fn dir_next(&mut self, inr: u32, cur: u64, buf: &mut [u8]) -> Out {
        let at = self.dir(inr)?;
        let n = self.whole_blocks(at)?;
        if buf.len() < 512 {
            return self.refuse(Parting::ShortBuffer, 34);
        }
        let mut pos = (cur % 512) as usize;
        for k in cur / 512..n {
            let block = self.read_at(at, 512 * k, 512)?;
            buf[..512].copy_from_slice(&block);
            loop {
                match rec_at(&block, pos) {
                    Rec::End => break,
                    Rec::Bad => return self.refuse(Parting::BadRecord, 97),
                    Rec::Used { inr, len, kind, name } => {
                        if kind != 14 {
                            return Ok(vec![inr.into(), kind.into(), pos as u64 + 8, name.len() as u64, 512 * k + (pos + len) as u64]);
                        }
                        pos += len;
                    }
                }
            }
            pos = 0;
        }
        Ok(vec![0; 5])
    }

    /// All listed records: inode, kind and name.
    pub fn dir_iter(&mut self, inr: u32) -> Work<Vec<(u32, u8, Vec<u8>)>> {
        let at = self.dir(inr)?;
        let mut all = Vec::new();
        self.walk(at, |_, _, _, inr, _, kind, name| {
            if kind != 14 {
                all.push((inr, kind, name.to_vec()));
            }
            None::<()>
        })?;
        Ok(all)
    }

    // ---- attributes

    /// The attribute area of an inode.
    fn area(&mut self, at: usize) -> Work<Vec<u8>> {
        let (s, bs) = (u64::from(word(self.image, at + 92)), self.card.bsize);
        if s >= 2 * bs {
            return self.panics(Parting::AttributeArea, 97);
        }
        let mut area = Vec::new();
        for j in 0..s.div_ceil(bs) {
            let (a, n) = (long(self.image, at + 96 + j as usize * 8) as u64, bs.min(s - j * bs));
            if a == 0 {
                return self.refuse(Parting::AttributeHole, 97);
            }
            if !self.run_ok(a, n.div_ceil(self.card.fsize)) {
                return self.refuse(Parting::RunOutside, 97);
            }
            area.extend_from_slice(&self.image[self.bytes_at(a)..][..n as usize]);
        }
        Ok(area)
    }
    /// The text and the value's place of each attribute, up to the first for which `f` answers.
    fn attributes<T>(&mut self, area: &[u8], mut f: impl FnMut(Vec<u8>, usize, usize) -> Option<T>) -> Work<Option<T>> {
        let mut b = 0;
        while area.len() - b >= 7 {
            let (len, ns, pad, n) = (word(area, b) as usize, area[b + 4], area[b + 5] as usize, area[b + 6] as usize);
            if n == 0 || n > 64 {
                break;
            }
            let v = (b + 7 + n).div_ceil(8) * 8;
            if b + 7 + n > area.len() || len < v - b || b + len > area.len() || pad > len - (v - b) {
                return self.refuse(Parting::BadAttribute, 97);
            }
            if let Some(ns) = [&b""[..], b"user.", b"system."].get(ns as usize) {
                if let Some(x) = f([ns, &area[b + 7..b + 7 + n]].concat(), v, b + len - pad) {
                    return Ok(Some(x));
                }
            }
            b += len;
        }
        Ok(None)
    }
    pub fn xattr_list_len(&mut self, inr: u32) -> Out {
        let at = self.find(inr)?;
        Ok(vec![word(self.image, at + 92).into()])
    }
    fn value(&mut self, inr: u32, name: &[u8]) -> Work<(Vec<u8>, usize, usize)> {
        let at = self.find(inr)?;
        let area = self.area(at)?;
        let (from, to) = self.attributes(&area, |n, from, to| (n == name).then_some((from, to)))?.ok_or(87u32)?;
        Ok((area, from, to))
    }
    pub fn xattr_len(&mut self, inr: u32, name: &[u8]) -> Out {
        let (_, from, to) = self.value(inr, name)?;
        Ok(vec![(to - from) as u64])
    }
    pub fn xattr_read(&mut self, inr: u32, name: &[u8], buf: &mut [u8]) -> Out {
        let (area, from, to) = self.value(inr, name)?;
        if buf.len() < area.len() && !self.as_rust {
            return self.refuse(Parting::ShortBuffer, 34);
        }
        buf[..area.len()].copy_from_slice(&area);
        Ok(vec![from as u64, to as u64])
    }
    pub fn xattr_list(&mut self, inr: u32, buf: &mut [u8]) -> Out {
        let at = self.find(inr)?;
        let area = self.area(at)?;
        let mut text = Vec::new();
        self.attributes(&area, |n, _, _| {
            text.extend(n);
            text.push(0);
            None::<()>
        })?;
        if buf.len() < text.len() {
            return self.refuse(Parting::ShortBuffer, 34);
        }
        buf[..text.len()].copy_from_slice(&text);
        Ok(vec![text.len() as u64])
    }
}
