//! The calls that change directories, told once more from 01; and as the Rust does them, in its own order.
use crate::account::{put_rec, rec_at, smallest, Account, Out, Parting, Rec, Spot, Work};
use crate::inode_rules::{carried, Record, DIR};
use crate::rules::{long, word, SUPER};
use std::collections::BTreeMap;

/// What a new inode is to hold.
#[derive(Clone, Copy, PartialEq)]
pub struct New {
    pub kind: u16,
    pub perm: u16,
    pub uid: u32,
    pub gid: u32,
    pub now: (i64, u32),
}

/// What a call does to an inode's link count, or that it reads the inode.
#[derive(Clone, Copy)]
enum Event {
    Fall,
    Rise,
    Read,
}

impl Account<'_> {
    /// What is judged before the first store: the Rust may meet it later, or not at all.
    fn judged<T>(&mut self, w: Work<T>) -> Work<T> {
        if w.is_err() && self.met.is_empty() {
            self.meet(Parting::JudgedFirst);
        }
        w
    }
    /// In the work only 14 and 28 are told; all else is damage.
    fn work<T>(&mut self, w: Work<T>) -> Work<T> {
        match w {
            Err(n) if !self.as_rust && n != 14 && n != 28 => {
                if self.met.is_empty() {
                    self.meet(Parting::JudgedFirst);
                }
                Err(97)
            }
            w => w,
        }
    }

    // ---- inodes given and freed

    fn give_inode(&mut self, new: New) -> Work<u32> {
        let c = self.card;
        for g in 0..c.ncg {
            let group = c.group(g);
            if word(self.image, group + 32) as i32 <= 0 {
                continue;
            }
            let map = group + word(self.image, group + 92) as usize;
            let Some(k) = (0..c.ipg).find(|k| self.image[map + (k / 8) as usize] & 1 << (k % 8) == 0) else { continue };
            self.image[map + (k / 8) as usize] |= 1 << (k % 8);
            let inr = (g * c.ipg + k) as u32;
            let at = self.place(inr)?;
            if self.nlink(at) != 0 {
                return Err(14);
            }
            let generation = word(self.image, at + 80);
            if generation == u32::MAX {
                return self.panics(Parting::InodePanics, 97);
            }
            self.image[at..at + 256].fill(0);
            self.put(at, 2, u64::from(new.kind << 12 | new.perm & 0xFFF));
            self.put(at + 2, 2, 1);
            self.put(at + 4, 4, new.uid.into());
            self.put(at + 8, 4, new.gid.into());
            self.put(at + 12, 4, c.bsize);
            for i in 0..4 {
                self.put(at + 32 + i * 8, 8, new.now.0 as u64);
                self.put(at + 64 + i * 4, 4, new.now.1.into());
            }
            self.put(at + 80, 4, u64::from(generation) + 1);
            self.add(group + 32, 4, -1);
            self.add(SUPER + 1024, 8, -1);
            return Ok(inr);
        }
        Err(28)
    }
    fn free_inode(&mut self, inr: u32) -> Work<()> {
        let c = self.card;
        let at = self.find(inr)?;
        let (s, n, held, text) = (self.shape(at), self.nlink(at), self.blocks(at), self.in_place(at));
        if n == 0 {
            return self.panics(Parting::CountEdge, 97);
        }
        self.put(at + 2, 2, n - 1);
        if n > 1 {
            return Ok(());
        }
        let addresses: Vec<u64> = (0..15).map(|k| long(self.image, at + 112 + k * 8) as u64).collect();
        self.image[at..at + 256].fill(0);
        let (g, k) = (u64::from(inr) / c.ipg, u64::from(inr) % c.ipg);
        let group = c.group(g);
        let byte = group + word(self.image, group + 92) as usize + (k / 8) as usize;
        if self.image[byte] & 1 << (k % 8) == 0 {
            return self.panics(Parting::InodePanics, 97);
        }
        self.image[byte] &= !(1 << (k % 8));
        self.add(group + 32, 4, 1);
        self.add(SUPER + 1024, 8, 1);
        if text {
            if held != 0 {
                self.meet(Parting::LinkText);
            }
            return Ok(());
        }
        for i in 0..12 {
            self.free_at(s, i, addresses[i as usize], None)?;
        }
        let mut held = held;
        for level in 1..=3 {
            self.free_tree(s, level, addresses[11 + level as usize], &mut held)?;
        }
        Ok(())
    }

    // ---- names put in and taken out

    /// As lookup, but whiteouts count too; behind a first record the next is read.
    pub fn find_any(&mut self, at: usize, name: &[u8]) -> Work<Option<Spot>> {
        let mut before = (u64::MAX, 0);
        let found = self.walk(at, |block, k, pos, inr, len, _, n| {
            if n == name {
                let next = (pos == 0).then(|| matches!(rec_at(block, len), Rec::Bad)).unwrap_or(false);
                let alone = pos == 0 && matches!(rec_at(block, len), Rec::End);
                let prev = if before.0 == k { before.1 } else { 0 };
                return Some((Spot { k, pos, prev, inr, alone }, next));
            }
            before = (k, pos);
            None
        })?;
        match found {
            Some((_, true)) => self.refuse(Parting::BadRecord, 97),
            Some((spot, false)) => Ok(Some(spot)),
            None => Ok(None),
        }
    }
    /// The first record with room for a name of n bytes: its block and place.
    fn room(&mut self, at: usize, n: usize) -> Work<Option<(u64, usize)>> {
        self.walk(at, |_, k, pos, _, len, _, name| (len - smallest(name.len()) >= smallest(n)).then_some((k, pos)))
    }
    fn link_judged(&mut self, at: usize, n: usize) -> Work<()> {
        if self.room(at, n)?.is_some() {
            return Ok(());
        }
        let new = self.size(at).checked_add(512).filter(|&n| n <= self.limit());
        let Some(new) = new else { return self.refuse(Parting::PastZones, 27) };
        self.held_tail(at, new)
    }
    fn link_name(&mut self, dinr: u32, inr: u32, name: &[u8], kind: u8) -> Work<()> {
        let at = self.dir(dinr)?;
        if name.len() > 255 {
            return self.panics(Parting::NameRefused, 97);
        }
        if let Some((k, pos)) = self.room(at, name.len())? {
            let mut block = self.read_at(at, 512 * k, 512)?;
            let Rec::Used { inr: old, len, kind: old_kind, name: old_name } = rec_at(&block, pos) else { unreachable!("found") };
            let least = smallest(old_name.len());
            put_rec(&mut block, pos, old, least, old_kind, &old_name);
            put_rec(&mut block, pos + least, inr, len - least, kind, name);
            return self.write_at(at, 512 * k, &block);
        }
        let size = self.size(at);
        if !self.as_rust {
            self.held_tail(at, size + 512)?;
        }
        self.put(at + 16, 8, size + 512);
        let mut block = vec![0; 512];
        put_rec(&mut block, 0, inr, 512, kind, name);
        self.write_at(at, size, &block)
    }
    fn unlink_judged(&mut self, at: usize, spot: &Spot) -> Work<()> {
        let new = self.size(at) - 512;
        if spot.alone && new > self.limit() {
            return self.refuse(Parting::PastZones, 27);
        }
        if spot.alone && self.keep(new) >= self.zone(3) {
            return self.refuse(Parting::TripleZone, 45);
        }
        Ok(())
    }
    fn unlink_name(&mut self, dinr: u32, name: &[u8]) -> Work<u32> {
        let at = self.dir(dinr)?;
        let Some(spot) = self.find_any(at, name)? else { return Err(2) };
        let mut block = self.read_at(at, 512 * spot.k, 512)?;
        let Rec::Used { len, .. } = rec_at(&block, spot.pos) else { unreachable!("found") };
        if !spot.alone {
            let (other, to) = if spot.pos > 0 { (spot.prev, spot.prev) } else { (len, 0) };
            let Rec::Used { inr, len: other_len, kind, name } = rec_at(&block, other) else { unreachable!("found") };
            put_rec(&mut block, to, inr, len + other_len, kind, &name);
            self.write_at(at, 512 * spot.k, &block)?;
            return Ok(spot.inr);
        }
        if self.size(at) % 512 != 0 {
            self.loose = true;
        }
        for k in spot.k + 1..self.size(at) / 512 {
            let block = self.read_at(at, 512 * k, 512)?;
            self.write_at(at, 512 * (k - 1), &block)?;
        }
        let new = self.size(at) - 512;
        self.truncate_work(at, new)?;
        Ok(spot.inr)
    }

    // ---- the calls

    pub fn unlink(&mut self, dinr: u32, name: &[u8]) -> Out {
        if !self.as_rust {
            let judged = self.unlink_tests(dinr, name);
            self.judged(judged)?;
        }
        let done = self.unlink_and_free(dinr, name);
        self.work(done)?;
        Ok(Vec::new())
    }
    fn unlink_tests(&mut self, dinr: u32, name: &[u8]) -> Work<()> {
        self.names(&[name], false)?;
        let at = self.dir(dinr)?;
        let spot = self.find_any(at, name)?.ok_or(2u32)?;
        let x = self.find(spot.inr)?;
        if self.nlink(x) == 0 {
            return self.refuse(Parting::CountEdge, 97);
        }
        self.unlink_judged(at, &spot)
    }
    fn unlink_and_free(&mut self, dinr: u32, name: &[u8]) -> Work<()> {
        let inr = self.unlink_name(dinr, name)?;
        self.free_inode(inr)
    }

    fn node_tests(&mut self, dinr: u32, name: &[u8], child: bool) -> Work<()> {
        self.names(&[name], true)?;
        let at = self.dir(dinr)?;
        if self.lookup(at, name)?.is_some() {
            return self.refuse(Parting::NameDoubled, 17);
        }
        if child && self.nlink(at) == 65535 {
            return self.refuse(Parting::CountEdge, 31);
        }
        self.link_judged(at, name.len())
    }
    fn node_work(&mut self, dinr: u32, name: &[u8], new: New) -> Work<(u32, Vec<u64>)> {
        if self.as_rust && (name.contains(&b'/') || name.contains(&0) || name == b"." || name == b"..") {
            return Err(22);
        }
        let inr = self.give_inode(new)?;
        let at = self.place(inr)?;
        let attr = self.attr(inr, at);
        self.link_name(dinr, inr, name, new.kind as u8)?;
        Ok((inr, attr))
    }
    pub fn mknod(&mut self, dinr: u32, name: &[u8], new: New) -> Out {
        if !self.as_rust {
            let judged = self.node_tests(dinr, name, false);
            self.judged(judged)?;
        }
        let done = self.node_work(dinr, name, new);
        Ok(self.work(done)?.1)
    }
    pub fn mkdir(&mut self, dinr: u32, name: &[u8], new: New) -> Out {
        if !self.as_rust {
            let judged = self.node_tests(dinr, name, true);
            self.judged(judged)?;
        }
        let done = self.directory_work(dinr, name, new);
        let (inr, at) = self.work(done)?;
        Ok(self.attr(inr, at))
    }
    fn directory_work(&mut self, dinr: u32, name: &[u8], new: New) -> Work<(u32, usize)> {
        let (inr, _) = self.node_work(dinr, name, New { kind: DIR, ..new })?;
        let (parent, at) = (self.find(dinr)?, self.find(inr)?);
        let n = self.nlink(parent);
        if n == 65535 {
            return self.panics(Parting::CountEdge, 97);
        }
        self.put(parent + 2, 2, n + 1);
        self.put(at + 2, 2, 2);
        self.truncate_work(at, 512)?;
        let mut block = vec![0; 512];
        put_rec(&mut block, 0, inr, 264, 4, b".");
        put_rec(&mut block, 264, dinr, 248, 4, b"..");
        self.write_at(at, 0, &block)?;
        Ok((inr, at))
    }

    // ---- rename and rmdir

    /// 22 where an event meets an inode that an earlier one has freed; then what the first count at its edge answers.
    fn ledger(&mut self, events: &[(Event, u32)]) -> (bool, Option<u32>) {
        let mut counts: BTreeMap<u32, u64> = BTreeMap::new();
        let (mut gone, mut edge) = (false, None);
        for &(event, inr) in events {
            let at = Record::place(self.card, inr);
            let stored = self.nlink(at);
            let n = *counts.entry(inr).or_insert(stored + 1);
            // one more than the count; 0 is an inode that was freed
            gone |= n == 0;
            let after = match event {
                _ if n == 0 => 0,
                Event::Fall if n == 1 => {
                    edge = edge.or(Some(97));
                    1
                }
                Event::Fall if n == 2 => 0,
                Event::Fall => n - 1,
                Event::Rise if n == 65536 => {
                    edge = edge.or(Some(31));
                    n
                }
                Event::Rise => n + 1,
                Event::Read => n,
            };
            counts.insert(inr, after);
        }
        (gone, edge)
    }
    /// Whether a found inode is none: its number or its type.
    fn absent(&mut self, inr: u32) -> bool {
        self.find(inr).is_err()
    }

    pub fn rename(&mut self, dd: u32, dname: &[u8], sd: u32, sname: &[u8], replace: bool) -> Out {
        if self.as_rust {
            return self.rename_as_rust(dd, dname, sd, sname, replace);
        }
        let judged = self.rename_tests(dd, dname, sd, sname, replace);
        let (inr, there) = match self.judged(judged)? {
            (inr, None) => return Ok(vec![inr.into()]),
            (inr, Some(there)) => (inr, there),
        };
        let done = self.rename_work(dd, dname, sd, sname, inr, there && replace);
        self.work(done)?;
        Ok(vec![inr.into()])
    }
    /// The inode, and whether the target is there; nothing is left to do where the two names are one.
    fn rename_tests(&mut self, dd: u32, dname: &[u8], sd: u32, sname: &[u8], replace: bool) -> Work<(u32, Option<bool>)> {
        self.names(&[sname, dname], true)?;
        let (sat, dat) = (self.place(sd)?, self.place(dd)?);
        self.find(sd)?;
        self.find(dd)?;
        let same = (dd, dname) == (sd, sname);
        let (s_dir, d_dir) = (self.kind(sat) == DIR, self.kind(dat) == DIR);
        let source = if s_dir { self.lookup(sat, sname) } else { Ok(None) };
        let taken = if s_dir && !same { self.find_any(sat, sname) } else { Ok(None) };
        let target = match (d_dir && !same, replace) {
            (true, true) => self.find_any(dat, dname).map(|t| t.map(|t| (t.inr, t.alone, t.k))),
            (true, false) => self.lookup(dat, dname).map(|t| t.map(|inr| (inr, false, 0))),
            _ => Ok(None),
        };
        let found: Vec<u32> = [source.clone().ok().flatten(), taken.as_ref().ok().and_then(|w| w.as_ref().map(|w| w.inr)), target.clone().ok().flatten().map(|t| t.0)].into_iter().flatten().collect();
        if found.iter().any(|&i| self.absent(i)) {
            return Err(22);
        }
        let mut edge = None;
        if let (Ok(Some(inr)), Ok(Some(w)), false) = (&source, &taken, same) {
            let t = target.clone().ok().flatten().filter(|_| replace);
            if target.is_ok() || !replace {
                let falls = t.map(|t| (Event::Fall, t.0));
                let events: Vec<_> = falls.into_iter().chain([(Event::Rise, *inr), (Event::Read, dd), (Event::Read, sd), (Event::Fall, w.inr)]).collect();
                let told = self.ledger(&events);
                if told.0 {
                    return Err(22);
                }
                edge = told.1;
            }
        }
        self.dir(sd)?;
        self.dir(dd)?;
        if let Ok(Some(inr)) = source {
            let kind = self.find(inr).map(|at| self.kind(at))?;
            let t = target.clone().ok().flatten();
            let t_dir = t.is_some_and(|t| self.kind(Record::place(self.card, t.0)) == DIR);
            if kind == DIR || t_dir {
                return Err(21);
            }
            if !Self::named(kind) {
                return self.refuse(Parting::NamelessKind, 97);
            }
        } else if target.clone().ok().flatten().is_some_and(|t| self.kind(Record::place(self.card, t.0)) == DIR) {
            return Err(21);
        }
        let inr = source?.ok_or(2u32)?;
        if same {
            self.meet(Parting::OntoItself);
            return Ok((inr, None));
        }
        let w = taken?.ok_or(97u32)?;
        let target = target?;
        if !replace {
            self.meet(Parting::RenameKeeps);
            if target.is_some() {
                return Err(17);
            }
        }
        if let Some(number) = edge {
            return self.refuse(Parting::CountEdge, number);
        }
        self.unlink_judged(sat, &w)?;
        match target {
            Some((_, false, _)) => (),
            Some((_, true, k)) => self.link_without(dat, dname.len(), k)?,
            None => self.link_judged(dat, dname.len())?,
        }
        self.time_of(inr);
        Ok((inr, Some(target.is_some())))
    }
    /// Room in another block than k, or the directory grows again by the block that goes.
    fn link_without(&mut self, at: usize, n: usize, k: u64) -> Work<()> {
        if self.walk_but(at, k, n)? {
            return Ok(());
        }
        let (b, f) = self.extent(self.size(at) - 512);
        let (size, c) = (self.size(at), self.card);
        let need = if size / c.bsize > b { c.frag } else { (size % c.bsize).div_ceil(c.fsize) };
        if 0 < f && f < c.frag && need > f { self.refuse(Parting::HeldTail, 45) } else { Ok(()) }
    }
    fn walk_but(&mut self, at: usize, but: u64, n: usize) -> Work<bool> {
        for k in (0..self.size(at) / 512).filter(|&k| k != but) {
            let block = self.read_at(at, 512 * k, 512)?;
            let mut pos = 0;
            loop {
                match rec_at(&block, pos) {
                    Rec::End => break,
                    Rec::Bad => return self.refuse(Parting::BadRecord, 97),
                    Rec::Used { len, name, .. } if len - smallest(name.len()) >= smallest(n) => return Ok(true),
                    Rec::Used { len, .. } => pos += len,
                }
            }
        }
        Ok(false)
    }
    /// The Rust tells an inode's attributes on the way, its times among them.
    fn time_of(&mut self, inr: u32) -> bool {
        let at = Record::place(self.card, inr);
        let bad = [(32, 68), (40, 64), (48, 72), (56, 76)].iter().any(|&(s, ns)| carried((long(self.image, at + s), word(self.image, at + ns))).is_none());
        if bad {
            self.meet(Parting::TimeCarried);
        }
        bad
    }
    fn rename_work(&mut self, dd: u32, dname: &[u8], sd: u32, sname: &[u8], inr: u32, there: bool) -> Work<()> {
        if there {
            self.unlink_and_free(dd, dname)?;
        }
        let at = self.find(inr)?;
        if !Self::named(self.kind(at)) || self.as_rust && self.time_of(inr) {
            return self.panics(Parting::NamelessKind, 97);
        }
        let n = self.nlink(at);
        if n == 65535 {
            return self.panics(Parting::CountEdge, 97);
        }
        let kind = self.kind(at) as u8;
        self.put(at + 2, 2, n + 1);
        self.link_name(dd, inr, dname, kind)?;
        self.unlink_and_free(sd, sname)
    }
    fn rename_as_rust(&mut self, dd: u32, dname: &[u8], sd: u32, sname: &[u8], replace: bool) -> Out {
        let sat = self.dir(sd)?;
        let inr = self.lookup(sat, sname)?.ok_or(2u32)?;
        if !replace {
            return Err(17);
        }
        match self.unlink_and_free(dd, dname) {
            Ok(()) | Err(2) => (),
            Err(n) => return Err(n),
        }
        self.rename_work(dd, dname, sd, sname, inr, false)?;
        Ok(vec![inr.into()])
    }

    pub fn rmdir(&mut self, dinr: u32, name: &[u8]) -> Out {
        let inr = if self.as_rust {
            let at = self.dir(dinr)?;
            let inr = self.lookup(at, name)?.ok_or(2u32)?;
            let below = self.dir(inr)?;
            if self.full(below)? {
                return Err(66);
            }
            inr
        } else {
            let judged = self.rmdir_tests(dinr, name);
            self.judged(judged)?
        };
        let done = self.rmdir_work(dinr, name, inr);
        self.work(done)?;
        Ok(Vec::new())
    }
    /// Whether a directory has a listed record beside "." and "..".
    fn full(&mut self, at: usize) -> Work<bool> {
        let other = self.walk(at, |_, _, _, _, _, kind, n| (kind != 14 && (kind != 4 || n != b"." && n != b"..")).then_some(()))?;
        Ok(other.is_some())
    }
    fn rmdir_tests(&mut self, dinr: u32, name: &[u8]) -> Work<u32> {
        self.names(&[name], true)?;
        let at = self.find(dinr)?;
        let inr = if self.kind(at) == DIR { self.lookup(at, name) } else { Ok(None) };
        let v = if self.kind(at) == DIR { self.find_any(at, name) } else { Ok(None) };
        if let Ok(Some(inr)) = inr {
            let below = self.find(inr)?;
            let is_dir = self.kind(below) == DIR;
            let q = if is_dir { self.find_any(below, b"..") } else { Ok(None) };
            let c = if is_dir { self.find_any(below, b".") } else { Ok(None) };
            let inner: Vec<u32> = [&q, &c].into_iter().filter_map(|x| x.as_ref().ok()?.as_ref().map(|s| s.inr)).collect();
            if inner.iter().any(|&i| self.absent(i)) {
                return Err(22);
            }
            let mut edge = None;
            if let [q, c] = inner[..] {
                let told = self.ledger(&[(Event::Fall, q), (Event::Read, inr), (Event::Fall, c), (Event::Fall, inr)]);
                if told.0 {
                    return Err(22);
                }
                edge = told.1;
            }
            self.dir(dinr)?;
            self.dir(inr)?;
            match v? {
                Some(v) if v.inr == inr => self.unlink_judged(at, &v)?,
                _ => return self.refuse(Parting::BadRecord, 97),
            }
            let q = q?.ok_or(2u32)?;
            c?.ok_or(2u32)?;
            if self.full(below)? {
                return Err(66);
            }
            if let Some(number) = edge {
                return self.refuse(Parting::CountEdge, number);
            }
            self.unlink_judged(below, &q)?;
            return Ok(inr);
        }
        self.dir(dinr)?;
        inr?.ok_or(2)
    }
    fn rmdir_work(&mut self, dinr: u32, name: &[u8], inr: u32) -> Work<()> {
        if self.unlink_name(dinr, name)? != inr {
            return self.panics(Parting::BadRecord, 97);
        }
        self.unlink_and_free(inr, b"..")?;
        self.unlink_and_free(inr, b".")?;
        self.free_inode(inr)
    }
}
