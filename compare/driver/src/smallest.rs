//! A smallest input for each rule of `Parting`, on the smallest cards: it falls under that rule and no other comes first.
use crate::account::Parting::{self, *};
use crate::acts::{under, Act};
use crate::dir_account::New;
use crate::inode_rules::Record;
use crate::rules::{number, put_number, Card};

const NEW: New = New { kind: 8, perm: 0o644, uid: 0, gid: 0, now: (1, 2) };
/// The second and the third zone's start, and the end, on a card of 4,096-byte blocks.
const SECOND: u64 = 12 + 512;
const THIRD: u64 = SECOND + 512 * 512;
const END: u64 = THIRD + 512 * 512 * 512;

/// The field of a record, its width and what it is set to; or bytes of the block that a record's first address has.
enum Set {
    Field(u32, usize, usize, u64),
    InBlock(u32, usize, u8),
    At(usize, Vec<u8>),
    /// A block that is marked in use.
    Taken(u64),
}
use Set::{At, Field, InBlock, Taken};

/// An attribute "user.a" of 8 bytes, whose length is said to be `len`.
fn attribute(len: u8) -> Vec<u8> {
    [&[len, 0, 0, 0, 1, 0, 1, b'a'][..], b"12345678"].concat()
}

fn list(entries: &[(usize, u64)]) -> Vec<u8> {
    let mut bytes = vec![0; 4096];
    entries.iter().for_each(|&(i, a)| put_number(&mut bytes, 8 * i, 8, a));
    bytes
}

fn inputs() -> Vec<(Parting, &'static str, Vec<Set>, Act)> {
    let name = |n: &[u8]| n.to_vec();
    let (one, two) = ("t-4k-1.img", "t-4k-2.img");
    let block = 4096;
    vec![
        (InodeOutOfRange, one, vec![], Act::Truncate(16, 0)),
        (NameRefused, one, vec![], Act::Lookup(2, name(b"a/b"))),
        (NameRefused, one, vec![], Act::Lookup(2, vec![b'a'; 256])),
        (NamelessKind, one, vec![Field(4, 0, 2, 0xFFFF)], Act::Modify(4, 0, [0; 3], [(0, 0); 4])),
        (UnsizedKind, one, vec![Field(4, 0, 2, 0x11A4)], Act::Write(4, 0, vec![1])),
        (TextAfterSize, one, vec![], Act::Write(3, 100, vec![1])),
        (LinkText, one, vec![Field(3, 24, 8, 1)], Act::Write(3, 0, vec![1])),
        (PastZones, one, vec![], Act::Truncate(4, END * block + 1)),
        (HeldTail, two, vec![], Act::Truncate(4, 2049)),
        (TripleZone, one, vec![Field(4, 16, 8, END * block)], Act::Truncate(4, THIRD * block)),
        (RunOutside, one, vec![Field(4, 112, 8, 1)], Act::Write(4, 0, vec![1])),
        (RunOverBlocks, two, vec![Field(4, 16, 8, 4096), Field(4, 112, 8, 61)], Act::Truncate(4, 0)),
        (AlreadyFree, one, vec![Field(4, 16, 8, 8192), Field(4, 120, 8, 28)], Act::Truncate(4, 0)),
        (Alignment, "s-4k-8.img", vec![Taken(512), Field(4, 16, 8, 4096), Field(4, 112, 8, 512)], Act::Truncate(4, 0)),
        (ZeroRoot, one, vec![At(0, vec![1]), Field(4, 16, 8, 13 * block)], Act::Truncate(4, 12 * block)),
        (SecondZoneIndex, one, vec![Field(4, 16, 8, (SECOND + 2) * block), Field(4, 216, 8, 28), At(28 * 4096, list(&[(0, 29)])), At(29 * 4096, list(&[(1, 26)]))], Act::Truncate(4, (SECOND + 1) * block)),
        (BlocksBelowZero, one, vec![Field(4, 24, 8, 0)], Act::Truncate(4, 0)),
        (ListPrefix, one, vec![], Act::Write(4, 13 * block, vec![1])),
        (TimeCarried, one, vec![], Act::Modify(4, 0o644, [0; 3], [(0, 1_000_000_000), (0, 0), (0, 0), (0, 0)])),
        (OddDirectory, one, vec![Field(2, 16, 8, 513)], Act::Lookup(2, name(b"a"))),
        (BadRecord, one, vec![InBlock(2, 4, 9)], Act::Lookup(2, name(b"a"))),
        (ShortBuffer, one, vec![Field(4, 92, 4, 16), Field(4, 96, 8, 28), At(28 * 4096, attribute(16))], Act::AttrRead(4, name(b"user.a"), 15)),
        (BadAttribute, one, vec![Field(4, 92, 4, 16), Field(4, 96, 8, 28), At(28 * 4096, attribute(7))], Act::AttrLen(4, name(b"user.a"))),
        (AttributeHole, one, vec![Field(4, 92, 4, 7)], Act::AttrList(4, 8)),
        (AttributeArea, one, vec![Field(4, 92, 4, 8192)], Act::AttrList(4, 8)),
        (PanicsInWork, one, vec![Field(4, 120, 8, 28)], Act::Truncate(4, 0)),
        (NameDoubled, one, vec![], Act::Mknod(2, name(b"a"), NEW)),
        (RenameKeeps, one, vec![], Act::Rename(2, name(b"z"), 2, name(b"a"), false)),
        (OntoItself, one, vec![], Act::Rename(2, name(b"a"), 2, name(b"a"), true)),
        (JudgedFirst, one, vec![], Act::Mknod(4, name(b"z"), NEW)),
        (CountEdge, one, vec![Field(4, 2, 2, 0)], Act::Unlink(2, name(b"a"))),
        (InodePanics, one, vec![Field(7, 80, 4, (1 << 32) - 1)], Act::Mknod(2, name(b"z"), NEW)),
    ]
}

/// Each input: that it falls under its rule, and what both did.
pub fn run(cards: &[(String, Vec<u8>)]) -> Result<(), String> {
    for (rule, card, sets, act) in inputs() {
        let Some((_, bytes)) = cards.iter().find(|c| c.0 == card) else { continue };
        let mut image = bytes.clone();
        let c = Card::read(&image);
        let mut said = Vec::new();
        for set in sets {
            match set {
                Field(inr, o, w, v) => {
                    put_number(&mut image, Record::place(&c, inr) + o, w, v);
                    said.push(format!("inode {inr}'s {w} bytes at {o} set to {v}"));
                }
                InBlock(inr, o, v) => {
                    let at = number(&image, Record::place(&c, inr) + 112, 8) * c.fsize;
                    image[at as usize + o] = v;
                    said.push(format!("byte {o} of inode {inr}'s first block set to {v}"));
                }
                Taken(a) => {
                    for f in a % c.fpg..a % c.fpg + c.frag {
                        let (at, bit) = c.bit(&image, a / c.fpg, f);
                        image[at] &= !bit;
                    }
                    said.push(format!("block {a} in use"));
                }
                At(at, bytes) => {
                    image[at..at + bytes.len()].copy_from_slice(&bytes);
                    said.push(format!("{} bytes at {at} set", bytes.len()));
                }
            }
        }
        let what = under(&image, &act).map_err(|e| format!("{rule:?}: {card}, {}, {act}: {e}", said.join(", ")))?;
        if !what.starts_with(&format!("{rule:?},")) {
            return Err(format!("{rule:?}: {card}, {}, {act} falls under: {what}", said.join(", ")));
        }
        println!("  {card}, {}{act}: {what}", said.iter().map(|s| format!("{s}, ")).collect::<String>());
    }
    Ok(())
}
