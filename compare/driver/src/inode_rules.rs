//! An inode's record, mapping and bytes, read here once more from the format, and the rules by which Rust and port may part.
use crate::rules::{long, number, word, Card};

#[derive(Clone, Copy, Debug)]
pub enum Ask {
    Attr(u32),
    BlockSize(u32, u64),
    Resolve(u32, u64),
    /// The offset and the length of the buffer.
    Read(u32, u64, usize),
}

impl Ask {
    pub fn inr(self) -> u32 {
        match self {
            Ask::Attr(inr) | Ask::BlockSize(inr, _) | Ask::Resolve(inr, _) | Ask::Read(inr, ..) => inr,
        }
    }
    pub fn name(self) -> &'static str {
        match self {
            Ask::Attr(_) => "inode_attr",
            Ask::BlockSize(..) => "inode_get_block_size",
            Ask::Resolve(..) => "inode_resolve_block",
            Ask::Read(..) => "inode_read",
        }
    }
    /// The offset or the index.
    pub fn at(self) -> u64 {
        match self {
            Ask::Attr(_) => 0,
            Ask::BlockSize(_, at) | Ask::Resolve(_, at) | Ask::Read(_, at, _) => at,
        }
    }
    pub fn room(self) -> usize {
        if let Ask::Read(_, _, room) = self { room } else { 0 }
    }
}

/// What a call answered: 0 and the words given, or the refusal's number; and the lent buffer.
#[derive(Clone, PartialEq, Debug)]
pub struct Told {
    pub number: u32,
    pub words: Vec<u64>,
    pub buf: Vec<u8>,
}

/// Each byte of a lent buffer before the call.
pub const LENT: u8 = 0xEE;

/// What a rule holds the Rust to.
#[derive(PartialEq)]
pub enum Rust {
    Panics,
    Tells(Told),
    /// It goes on outside what the format has.
    Anything,
}

/// Where the two may part: the port is held to `port`, the Rust to `rust`.
pub struct Parting {
    pub name: &'static str,
    pub port: Told,
    pub rust: Rust,
}

/// Where a block of a file lies.
#[derive(PartialEq)]
pub enum Block {
    At(u64),
    Hole,
    /// A list, or the block itself, is outside a group or reserved.
    Outside,
    PastZones,
}

/// An inode's record in its image.
pub struct Record<'a> {
    pub card: &'a Card,
    pub image: &'a [u8],
    pub at: usize,
}

pub const FIFO: u16 = 1;
pub const DIR: u16 = 4;
pub const REG: u16 = 8;
pub const LNK: u16 = 10;

impl Record<'_> {
    pub fn place(card: &Card, inr: u32) -> usize {
        let inr = u64::from(inr);
        ((inr / card.ipg * card.fpg + card.iblkno) * card.fsize + inr % card.ipg * 256) as usize
    }
    pub fn mode(&self) -> u16 {
        number(self.image, self.at, 2) as u16
    }
    pub fn kind(&self) -> u16 {
        self.mode() >> 12
    }
    pub fn size(&self) -> u64 {
        long(self.image, self.at + 16) as u64
    }
    pub fn blocks(&self) -> u64 {
        long(self.image, self.at + 24) as u64
    }
    /// The times as stored: atime, mtime, ctime, btime. In the record mtime's nanoseconds stand before atime's.
    pub fn times(&self) -> [(i64, u32); 4] {
        [(32, 68), (40, 64), (48, 72), (56, 76)].map(|(s, ns)| (long(self.image, self.at + s), word(self.image, self.at + ns)))
    }
    fn named(&self) -> bool {
        [FIFO, 2, DIR, 6, REG, LNK, 12].contains(&self.kind())
    }
    pub fn sized(&self) -> bool {
        [REG, DIR, LNK].contains(&self.kind())
    }
    /// The whole blocks, and the fragments of the tail.
    pub fn extent(&self) -> (u64, u64) {
        (self.size() / self.card.bsize, (self.size() % self.card.bsize).div_ceil(self.card.fsize))
    }
    fn held(&self, i: u64) -> Option<u64> {
        let (blocks, frags) = self.extent();
        if i < blocks { Some(self.card.bsize) } else if i < blocks + frags { Some(frags * self.card.fsize) } else { None }
    }
    /// How many lists stand above the block, from which of the 15 addresses, and its place under it.
    fn zone(&self, i: u64) -> Option<(u32, usize, u64)> {
        let p = self.card.bsize / 8;
        if i < 12 {
            return Some((0, i as usize, 0));
        }
        let mut rest = i - 12;
        for level in 1..=3 {
            if rest < p.pow(level) {
                return Some((level, 11 + level as usize, rest));
            }
            rest -= p.pow(level);
        }
        None
    }
    pub fn level(&self, i: u64) -> Option<u32> {
        self.zone(i).map(|z| z.0)
    }
    pub fn block(&self, i: u64) -> Block {
        let Some((level, root, mut rest)) = self.zone(i) else { return Block::PastZones };
        let p = self.card.bsize / 8;
        let mut a = long(self.image, self.at + 112 + root * 8) as u64;
        for below in (0..level).rev() {
            if a == 0 {
                return Block::Hole;
            }
            if !self.card.run_ok(self.image, a, self.card.frag) {
                return Block::Outside;
            }
            a = long(self.image, (a * self.card.fsize + rest / p.pow(below) * 8) as usize) as u64;
            rest %= p.pow(below);
        }
        match a {
            0 => Block::Hole,
            _ if self.card.run_ok(self.image, a, self.held(i).unwrap_or(0) / self.card.fsize) => Block::At(a),
            _ => Block::Outside,
        }
    }
    /// The buffer with the file's bytes from `off` on, up to the first block that cannot be read: which it is.
    fn bytes(&self, off: u64, n: u64, buf: &mut [u8]) -> Option<Block> {
        let bs = self.card.bsize;
        let mut done = 0;
        while done < n {
            let (i, from) = ((off + done) / bs, (off + done) % bs);
            let num = (bs - from).min(n - done);
            let to = &mut buf[done as usize..(done + num) as usize];
            match self.block(i) {
                Block::At(a) => to.copy_from_slice(&self.image[(a * self.card.fsize + from) as usize..][..num as usize]),
                Block::Hole => to.fill(0),
                bad => return Some(bad),
            }
            done += num;
        }
        None
    }
}

/// How the block asked for, or the first one read, is reached.
pub fn way(card: &Card, image: &[u8], ask: Ask) -> String {
    let record = Record { card, image, at: Record::place(card, ask.inr()) };
    let i = match ask {
        Ask::Resolve(_, i) => i,
        Ask::Read(_, off, room) if room > 0 && off < record.size() => off / card.bsize,
        _ => return String::new(),
    };
    let what = if record.block(i) == Block::Hole { "a hole" } else { "a block" };
    format!(", {what} under {} lists", record.level(i).unwrap_or(0))
}

/// The time that the Rust's SystemTime makes of a stored pair; none where it panics.
pub fn carried((s, ns): (i64, u32)) -> Option<(i64, u32)> {
    let (more, rest) = (i128::from(ns / 1_000_000_000), ns % 1_000_000_000);
    let secs = i128::from(s.checked_abs()?) + more;
    let least = s < 0 && secs == 1 << 63 && rest == 0;
    if secs >> 63 != 0 && !least {
        return None;
    }
    Some((if s < 0 { -secs } else { secs } as i64, rest))
}

/// The rule that the call falls under, on this volume; none where both must answer the same.
pub fn parting(card: &Card, image: &[u8], ask: Ask, port: &Told) -> Option<Parting> {
    let refused = |number| Told { number, words: Vec::new(), buf: vec![LENT; ask.room()] };
    let part = |name, port, rust| Some(Parting { name, port, rust });
    let inr = ask.inr();
    if inr == 0 || u64::from(inr) >= card.ncg * card.ipg {
        return part("inode_out_of_range", refused(22), Rust::Anything);
    }
    let record = Record { card, image, at: Record::place(card, inr) };
    if record.kind() == 0 {
        return None;
    }
    let short_link = record.kind() == LNK && record.size() < 120 && record.blocks() != 0;
    let unsized_kind = if record.named() { "unsized_kind" } else { "nameless_kind" };
    match ask {
        Ask::Attr(_) if !record.named() => part("nameless_kind", refused(97), Rust::Panics),
        Ask::Attr(_) => {
            let made = record.times().map(carried);
            if made == record.times().map(Some) || port.number != 0 {
                return None;
            }
            let mut stored = port.clone();
            let mut rust = Rust::Tells(port.clone());
            for (i, (was, is)) in record.times().into_iter().zip(made).enumerate() {
                (stored.words[5 + 2 * i], stored.words[6 + 2 * i]) = (was.0 as u64, was.1.into());
                match (&mut rust, is) {
                    (Rust::Tells(told), Some(is)) => (told.words[5 + 2 * i], told.words[6 + 2 * i]) = (is.0 as u64, is.1.into()),
                    _ => rust = Rust::Panics,
                }
            }
            part("time_carried", stored, rust)
        }
        Ask::BlockSize(_, i) if record.sized() => match record.held(i) {
            Some(_) => None,
            None => part("index_past_end", refused(22), Rust::Panics),
        },
        Ask::Resolve(_, i) if record.level(i).is_none() => match record.held(i) {
            _ if !record.sized() => part(unsized_kind, refused(22), Rust::Panics),
            None => part("index_past_end", refused(22), Rust::Panics),
            Some(_) if record.kind() == LNK && record.blocks() == 0 => part("text_or_zones", refused(22), Rust::Tells(refused(5))),
            Some(_) => None,
        },
        Ask::Resolve(_, i) if record.sized() => match record.held(i) {
            None => part("index_past_end", refused(22), Rust::Panics),
            Some(_) if record.kind() == LNK && record.blocks() == 0 => None,
            Some(_) if short_link => part("link_text", refused(5), Rust::Anything),
            Some(_) if record.block(i) == Block::Outside => part("run_outside", refused(97), Rust::Anything),
            Some(_) => None,
        },
        Ask::BlockSize(..) | Ask::Resolve(..) => part(unsized_kind, refused(97), Rust::Panics),
        Ask::Read(_, off, room) => {
            let size = record.size();
            let n = (room as u64).min(size.saturating_sub(off));
            if off > size {
                return part("read_past_size", Told { words: vec![0], ..refused(0) }, Rust::Panics);
            }
            if n == 0 {
                return None;
            }
            if !record.sized() {
                return part(unsized_kind, refused(97), Rust::Panics);
            }
            let text = record.kind() == LNK && record.blocks() == 0;
            // the tail's end, which the Rust adds up, is 2^64
            if size > 0u64.wrapping_sub(card.fsize) && off >= record.extent().0 * card.bsize {
                return part("tail_ends_at_2_to_64", refused(if text { 5 } else { 97 }), Rust::Panics);
            }
            if text {
                return None;
            }
            if short_link {
                return part("link_text", refused(5), Rust::Anything);
            }
            let mut buf = vec![LENT; room];
            match record.bytes(off, n, &mut buf)? {
                Block::PastZones => part("read_past_zones", Told { buf: buf.clone(), ..refused(97) }, Rust::Tells(Told { buf, ..refused(22) })),
                _ => part("run_outside", Told { buf, ..refused(97) }, Rust::Anything),
            }
        }
    }
}
