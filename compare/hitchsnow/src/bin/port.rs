//! The port behind a line protocol: a request a line, one answer line for each, `NUMBER PAYLOAD.. [buf=CRC] crc=CRC`.
//! A request that is not known, not yet a call of the port, or whose words cannot be read is answered by a line `? ..`.
use std::io::{BufRead, Write};

fn crc(bytes: &[u8]) -> u32 {
    let table: [u32; 256] = std::array::from_fn(|i| (0..8).fold(i as u32, |c, _| c >> 1 ^ if c & 1 == 1 { 0xEDB8_8320 } else { 0 }));
    !bytes.iter().fold(!0, |c, &b| c >> 8 ^ table[(c as u8 ^ b) as usize])
}

fn unhex(text: &str) -> Option<Vec<u8>> {
    if text == "-" {
        return Some(Vec::new());
    }
    (0..text.len()).step_by(2).map(|i| u8::from_str_radix(text.get(i..i + 2)?, 16).ok()).collect()
}

fn hex(bytes: &[u8]) -> String {
    if bytes.is_empty() { "-".into() } else { bytes.iter().map(|b| format!("{b:02x}")).collect() }
}

fn kind(number: u64) -> &'static str {
    ["", "fifo", "chr", "", "dir", "", "blk", "", "reg", "", "lnk", "", "sock"][number as usize]
}

/// A time is SEC.NSEC; its seconds have a sign.
fn attributes(w: [u64; 21]) -> String {
    let time = |i: usize| format!("{}.{}", w[i] as i64, w[i + 1]);
    let rest: Vec<String> = w[13..].iter().map(u64::to_string).collect();
    format!("{} {} {} {} {} {} {} {} {} {}", w[0], kind(w[1]), w[2], w[3], w[4], time(5), time(7), time(9), time(11), rest.join(" "))
}

struct Held {
    image: Vec<u8>,
    writable: bool,
}

/// The number, or what is given as text; and the lent buffer.
type Answer = (Result<String, u32>, Option<Vec<u8>>);

impl Held {
    fn answer(&mut self, words: &[&str]) -> Option<Answer> {
        let number = |i: usize| -> Option<u64> { words.get(i)?.parse().ok() };
        let inr = || number(1)?.try_into().ok();
        let (image, writable) = (&mut self.image, self.writable);
        let plain = match (*words.first()?, words.len()) {
            ("open", 1) => hitchsnow::open(image, writable).map(|()| String::new()),
            ("blk_alloc", 2) | ("blk_alloc_cut", 3) => {
                let cut = if words.len() == 3 { Some(number(2)?) } else { None };
                hitchsnow::blk_alloc(image, writable, number(1)?, cut).map(|(address, size, made)| format!("{address} {size} {made}"))
            }
            ("blk_free", 3) | ("blk_free_cut", 4) => {
                let cut = if words.len() == 4 { Some(number(3)?) } else { None };
                hitchsnow::blk_free(image, writable, number(1)?, number(2)?, cut).map(|made| made.to_string())
            }
            ("recount", 1) => hitchsnow::recount(image, writable).map(|(nbfree, nffree)| format!("{nbfree} {nffree}")),
            ("inode_attr", 2) => hitchsnow::inode_attr(image, inr()?).map(attributes),
            ("inode_get_block_size", 3) => hitchsnow::inode_get_block_size(image, inr()?, number(2)?).map(|n| n.to_string()),
            ("inode_resolve_block", 3) => hitchsnow::inode_resolve_block(image, inr()?, number(2)?).map(|a| a.to_string()),
            ("inode_read", 4) => {
                let mut buf = vec![0xEE; number(3)?.try_into().ok()?];
                let done = hitchsnow::inode_read(image, inr()?, number(2)?, &mut buf);
                return Some((done.map(|n| n.to_string()), Some(buf)));
            }
            ("inode_modify", 14) => {
                let signed = |i: usize| -> Option<u64> { words.get(i)?.parse::<i64>().ok().map(|n| n as u64).or(number(i)) };
                let mut times = [0; 8];
                for i in 0..8 {
                    times[i] = signed(6 + i)?;
                }
                let wanted = hitchsnow::Wanted { perm: number(2)? as u16, uid: number(3)? as u32, gid: number(4)? as u32, flags: number(5)? as u32, times };
                hitchsnow::inode_modify(image, writable, inr()?, &wanted).map(attributes)
            }
            ("inode_write", 4) => hitchsnow::inode_write(image, writable, inr()?, number(2)?, &unhex(words[3])?).map(|n| n.to_string()),
            ("inode_truncate", 3) => hitchsnow::inode_truncate(image, writable, inr()?, number(2)?).map(|()| String::new()),
            ("dir_lookup", 3) => hitchsnow::dir_lookup(image, inr()?, &unhex(words[2])?).map(|i| i.to_string()),
            ("dir_next", 4) => {
                let mut buf = vec![0xEE; number(3)?.try_into().ok()?];
                let done = hitchsnow::dir_next(image, inr()?, number(2)?, &mut buf);
                let told = done.map(|w| match w[1] {
                    0 => "end".into(),
                    k => format!("{} {} {} {}", w[0], kind(k), hex(&buf[w[2] as usize..][..w[3] as usize]), w[4]),
                });
                return Some((told, Some(buf)));
            }
            ("unlink", 3) => hitchsnow::unlink(image, writable, inr()?, &unhex(words[2])?).map(|()| String::new()),
            ("rmdir", 3) => hitchsnow::rmdir(image, writable, inr()?, &unhex(words[2])?).map(|()| String::new()),
            ("rename", 6) => {
                let from: u32 = number(3)?.try_into().ok()?;
                hitchsnow::rename(image, writable, (inr()?, &unhex(words[2])?), (from, &unhex(words[4])?), number(5)? != 0).map(|i| i.to_string())
            }
            ("mknod", 9) | ("mkdir", 8) => {
                // mkdir has no kind
                let node = words[0] == "mknod";
                let rest = if node { 4 } else { 3 };
                let kind = if node { (1..13).find(|&k| !kind(k).is_empty() && kind(k) == words[3])? as u16 } else { 4 };
                let sec = words[rest + 3].parse::<i64>().ok().map(|n| n as u64).or(number(rest + 3))?;
                let new = hitchsnow::New { kind, perm: number(rest)? as u16, uid: number(rest + 1)? as u32, gid: number(rest + 2)? as u32, sec, nsec: number(rest + 4)? as u32 };
                let name = unhex(words[2])?;
                let made = if node { hitchsnow::mknod(image, writable, inr()?, &name, &new) } else { hitchsnow::mkdir(image, writable, inr()?, &name, &new) };
                made.map(attributes)
            }
            ("xattr_list_len", 2) => hitchsnow::xattr_list_len(image, inr()?).map(|n| n.to_string()),
            ("xattr_len", 3) => hitchsnow::xattr_len(image, inr()?, &unhex(words[2])?).map(|n| n.to_string()),
            ("xattr_list", 3) => {
                let mut buf = vec![0xEE; number(2)?.try_into().ok()?];
                let done = hitchsnow::xattr_list(image, inr()?, &mut buf);
                return Some((done.map(|n| n.to_string()), Some(buf)));
            }
            ("xattr_read", 4) => {
                let mut buf = vec![0xEE; number(3)?.try_into().ok()?];
                let done = hitchsnow::xattr_read(image, inr()?, &unhex(words[2])?, &mut buf);
                return Some((done.map(|(begin, end)| format!("{begin} {end}")), Some(buf)));
            }
            ("load", 2) => Ok(*image = std::fs::read(words[1]).ok()?).map(|()| String::new()),
            ("save", 2) => Ok(std::fs::write(words[1], &image).ok()?).map(|()| String::new()),
            ("rw", 2) => Ok(self.writable = number(1)? != 0).map(|()| String::new()),
            ("poke", 3) => {
                let (at, bytes) = (number(1)? as usize, unhex(words[2])?);
                image.get_mut(at..at.checked_add(bytes.len())?)?.copy_from_slice(&bytes);
                Ok(String::new())
            }
            _ => return None,
        };
        Some((plain, None))
    }
}

fn main() {
    let words: Vec<String> = std::env::args().skip(1).collect();
    let (Some(path), writable) = (words.first(), words.get(1).is_none_or(|w| w != "ro")) else {
        return eprintln!("port IMAGE [ro]");
    };
    let image = std::fs::read(path).expect("an image file");
    let mut held = Held { image, writable };
    let mut out = std::io::stdout();
    for line in std::io::stdin().lock().lines() {
        let line = line.expect("a line of text");
        let said = match held.answer(&line.split(' ').collect::<Vec<_>>()) {
            None => format!("? {line}"),
            Some((done, buf)) => {
                let first = match done {
                    Ok(given) if given.is_empty() => "0".into(),
                    Ok(given) => format!("0 {given}"),
                    Err(number) => number.to_string(),
                };
                let buf = buf.map_or(String::new(), |b| format!(" buf={:08x}", crc(&b)));
                format!("{first}{buf} crc={:08x}", crc(&held.image))
            }
        };
        writeln!(out, "{said}").and_then(|()| out.flush()).expect("someone who reads");
    }
}
