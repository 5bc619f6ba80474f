//! A volume's numbers and maps, read here once more from the format, and the rules by which Rust and port may part.
pub const SUPER: usize = 65536;

/// A sound volume's group counts and totals lie no further from 0 than these.
pub const COUNT_EDGE: i32 = 2147483639;
pub const TOTAL_EDGE: i64 = 1 << 62;

#[derive(Clone, Copy, Debug)]
pub enum Call {
    Alloc(u64),
    Free(u64, u64),
}

#[derive(Clone, Copy)]
pub enum Rule {
    /// No parting: number, answer, image and stores are the same.
    Same,
    /// The port refuses with the number and stores nothing; the Rust panics, or may do anything.
    Refused { name: &'static str, number: u32, panics: bool },
    /// The Rust asks `bno % bsize / fsize` and panics; the port takes the run back.
    Alignment,
}

impl Rule {
    pub fn name(self) -> &'static str {
        match self {
            Rule::Same => "same",
            Rule::Refused { name, .. } => name,
            Rule::Alignment => "alignment",
        }
    }
}

pub struct Card {
    pub sblkno: u64,
    pub cblkno: u64,
    pub iblkno: u64,
    pub dblkno: u64,
    pub ncg: u64,
    pub bsize: u64,
    pub fsize: u64,
    pub frag: u64,
    pub ipg: u64,
    pub fpg: u64,
}

/// The number of so many bytes, at most 8.
pub fn number(image: &[u8], at: usize, width: usize) -> u64 {
    image[at..at + width].iter().rev().fold(0, |n, b| n << 8 | u64::from(*b))
}
pub fn put_number(image: &mut [u8], at: usize, width: usize, n: u64) {
    image[at..at + width].copy_from_slice(&n.to_le_bytes()[..width]);
}
pub fn word(image: &[u8], at: usize) -> u32 {
    number(image, at, 4) as u32
}
fn put_word(image: &mut [u8], at: usize, n: u32) {
    put_number(image, at, 4, n.into());
}
fn add_word(image: &mut [u8], at: usize, n: i32) {
    let sum = (word(image, at) as i32).wrapping_add(n);
    put_word(image, at, sum as u32);
}
pub fn long(image: &[u8], at: usize) -> i64 {
    number(image, at, 8) as i64
}
fn add_long(image: &mut [u8], at: usize, n: i64) {
    let sum = long(image, at).wrapping_add(n);
    put_number(image, at, 8, sum as u64);
}

impl Card {
    pub fn read(image: &[u8]) -> Card {
        let at = |o: usize| u64::from(word(image, SUPER + o));
        Card { sblkno: at(8), cblkno: at(12), iblkno: at(16), dblkno: at(20), ncg: at(44), bsize: at(48), fsize: at(52), frag: at(56), ipg: at(184), fpg: at(188) }
    }
    pub fn group(&self, g: u64) -> usize {
        ((g * self.fpg + self.cblkno) * self.fsize) as usize
    }
    pub fn ndblk(&self, image: &[u8], g: u64) -> u64 {
        u64::from(word(image, self.group(g) + 20))
    }
    /// The map's byte of fragment f of group g, and the bit in it.
    pub fn bit(&self, image: &[u8], g: u64, f: u64) -> (usize, u8) {
        (self.group(g) + word(image, self.group(g) + 96) as usize + (f / 8) as usize, 1 << (f % 8))
    }
    pub fn free(&self, image: &[u8], g: u64, f: u64) -> bool {
        let (at, bit) = self.bit(image, g, f);
        image[at] & bit != 0
    }
    /// Whether n fragments from address a on lie in one group's ndblk and touch none that is reserved.
    pub fn run_ok(&self, image: &[u8], a: u64, n: u64) -> bool {
        let (g, f) = (a / self.fpg, a % self.fpg);
        let first_reserved = if g == 0 { 0 } else { self.sblkno };
        g < self.ncg && f + n <= self.ndblk(image, g) && (f >= self.dblkno || f + n <= first_reserved)
    }
    /// A count past its edge: the volume is no longer sound.
    pub fn past_edge(&self, image: &[u8]) -> bool {
        let count = |at| !(-COUNT_EDGE..=COUNT_EDGE).contains(&(word(image, at) as i32));
        let total = |at| !(-TOTAL_EDGE..=TOTAL_EDGE).contains(&long(image, at));
        (0..self.ncg).any(|g| count(self.group(g) + 28) || count(self.group(g) + 36)) || total(SUPER + 1016) || total(SUPER + 1032)
    }
    pub fn set_counts(&self, image: &mut [u8], g: u64, nbfree: u32, nffree: u32) {
        let at = self.group(g);
        put_word(image, at + 28, nbfree);
        put_word(image, at + 36, nffree);
    }
    pub fn set_totals(&self, image: &mut [u8], nbfree: u64, nffree: u64) {
        put_number(image, SUPER + 1016, 8, nbfree);
        put_number(image, SUPER + 1032, 8, nffree);
    }
    /// The last group without its last n fragments.
    pub fn shorten(&self, image: &mut [u8], n: u64) {
        let g = self.ncg - 1;
        let ndblk = self.ndblk(image, g);
        if ndblk < self.dblkno + n {
            return;
        }
        for f in ndblk - n..ndblk {
            let (at, bit) = self.bit(image, g, f);
            image[at] &= !bit;
        }
        put_word(image, self.group(g) + 20, (ndblk - n) as u32);
    }
    /// The blocks past the reserved ones with new free bits, and true counts.
    pub fn fill(&self, image: &mut [u8], mut free: impl FnMut(u64) -> u16) {
        for g in 0..self.ncg {
            let first = self.dblkno.div_ceil(self.frag) * self.frag;
            for b in (first..self.ndblk(image, g)).step_by(self.frag as usize) {
                let bits = free(self.frag);
                for f in b..(b + self.frag).min(self.ndblk(image, g)) {
                    let (at, bit) = self.bit(image, g, f);
                    image[at] = image[at] & !bit | if bits >> (f - b) & 1 == 1 { bit } else { 0 };
                }
            }
        }
        let (counted, _, _) = recounted(self, image);
        image.copy_from_slice(&counted);
    }
    /// The free blocks of a group, and its free fragments outside of them.
    fn count(&self, image: &[u8], g: u64) -> (u32, u32) {
        let ndblk = self.ndblk(image, g);
        let (mut blocks, mut loose) = (0, 0);
        for b in (0..ndblk).step_by(self.frag as usize) {
            let free = (b..(b + self.frag).min(ndblk)).filter(|&f| self.free(image, g, f)).count() as u32;
            if u64::from(free) == self.frag { blocks += 1 } else { loose += free }
        }
        (blocks, loose)
    }
}

/// The rule that the call falls under, on this volume.
pub fn rule(card: &Card, image: &[u8], call: Call) -> Rule {
    let refused = |name, number, panics| Rule::Refused { name, number, panics };
    if card.past_edge(image) {
        return refused("count_past_edge", 97, false);
    }
    let (address, size) = match call {
        Call::Free(0, _) => return Rule::Same,
        Call::Free(address, size) => (Some(address), size),
        Call::Alloc(size) => (None, size),
    };
    if size == 0 || size > card.bsize || size % card.fsize != 0 {
        return refused("size_is_22", 22, true);
    }
    let Some(a) = address else { return Rule::Same };
    let n = size / card.fsize;
    if a % card.frag + n > card.frag {
        return refused("run_over_blocks", 22, false);
    }
    let (g, f) = (a / card.fpg, a % card.fpg);
    if !card.run_ok(image, a, n) {
        return refused("reserved_or_past_ndblk", 97, false);
    }
    if (f..f + n).any(|f| card.free(image, g, f)) {
        return refused("already_free", 97, true);
    }
    if a % card.bsize / card.fsize + n > card.frag {
        return Rule::Alignment;
    }
    Rule::Same
}

/// What a good blk_free leaves, and its number of stores, where the Rust cannot be asked.
pub fn freed(card: &Card, before: &[u8], call: Call) -> (Vec<u8>, u64) {
    let Call::Free(a, size) = call else { unreachable!("only blk_free is held to an alignment") };
    let (g, f, n) = (a / card.fpg, a % card.fpg, size / card.fsize);
    let mut image = before.to_vec();
    for f in f..f + n {
        let (at, bit) = card.bit(&image, g, f);
        image[at] |= bit;
    }
    let block = f / card.frag * card.frag;
    let whole = block + card.frag <= card.ndblk(&image, g) && (block..block + card.frag).all(|f| card.free(&image, g, f));
    let blocks = i32::from(whole);
    let loose = if n == card.frag { 0 } else { n as i32 - blocks * card.frag as i32 };
    add_word(&mut image, card.group(g) + 28, blocks);
    add_word(&mut image, card.group(g) + 36, loose);
    add_long(&mut image, SUPER + 1016, blocks.into());
    add_long(&mut image, SUPER + 1032, loose.into());
    let made = if n == card.frag { 3 } else { n + 2 + u64::from(whole) };
    (image, made)
}

/// The image with true counts, and the totals nbfree and nffree.
pub fn recounted(card: &Card, before: &[u8]) -> (Vec<u8>, u64, u64) {
    let mut image = before.to_vec();
    let (mut blocks, mut loose) = (0, 0);
    for g in 0..card.ncg {
        let (b, l) = card.count(before, g);
        card.set_counts(&mut image, g, b, l);
        blocks += u64::from(b);
        loose += u64::from(l);
    }
    card.set_totals(&mut image, blocks, loose);
    (image, blocks, loose)
}

/// The Rust opens a volume only where sbsize is fsize; the port does not ask.
pub fn set_sbsize(image: &mut [u8]) {
    let fsize = word(image, SUPER + 52);
    put_word(image, SUPER + 104, fsize);
}

/// The volume with one thing changed: what, whether the Rust opens it, what the port answers, and its bytes.
pub fn openings(image: &[u8]) -> Vec<(&'static str, bool, u32, Vec<u8>)> {
    let card = Card::read(image);
    let last = card.ncg - 1;
    let copy = ((last * card.fpg + card.sblkno) * card.fsize) as usize;
    let group = card.group(last);
    let reserved = card.bit(image, last, card.dblkno - 1);
    let mut opened = image.to_vec();
    opened[reserved.0] |= reserved.1;
    [
        ("superblock's magic 0", false, 97, SUPER + 1372, 0),
        ("last copy's magic 0", false, 97, copy + 1372, 0),
        ("last group's magic 0", false, 97, group + 4, 0),
        ("ncg 0", false, 97, SUPER + 44, 0),
        ("ipg 0", false, 97, SUPER + 184, 0),
        ("fpg 0", false, 97, SUPER + 188, 0),
        ("frag 0", false, 97, SUPER + 56, 0),
        ("sbsize 1376", false, 0, SUPER + 104, 1376),
        ("bshift 0", false, 0, SUPER + 80, 0),
        ("fshift 0", false, 0, SUPER + 84, 0),
        ("fragshift 9", false, 0, SUPER + 96, 9),
        ("bmask 0", false, 0, SUPER + 72, 0),
        ("fmask 0", false, 0, SUPER + 76, 0),
        ("ipg 12", true, 97, SUPER + 184, 12),
        ("last group's ndblk 0", true, 97, group + 20, 0),
        ("last group's freeoff 2^31", true, 97, group + 96, 1 << 31),
        ("last group's nffree 2^31 - 9", true, 0, group + 36, COUNT_EDGE as u32),
        ("last group's nffree 2^31 - 8", true, 97, group + 36, COUNT_EDGE as u32 + 1),
        ("reserved fragment free", true, 97, reserved.0 / 4 * 4, word(&opened, reserved.0 / 4 * 4)),
    ]
    .into_iter()
    .map(|(what, rust, port, at, to)| {
        let mut bytes = image.to_vec();
        put_word(&mut bytes, at, to);
        (what, rust, port, bytes)
    })
    .collect()
}
