//! The calls of the port beside the Rust's. Of the block calls the same number, answer, image and number of stores after every call,
//! and after every call cut short. Where the two may part, a rule names it: a function of the volume and of the call.
mod account;
mod acts;
mod clock;
mod dir_account;
mod image;
mod inode_rules;
mod inodes;
mod port;
mod rules;
mod smallest;

use image::{Image, Shared};
use rufs::{BlockReader, Ufs};
use rules::{Call, Card, Rule};
use std::collections::BTreeMap;
use std::panic::{catch_unwind, AssertUnwindSafe};
use std::time::Instant;

/// What a call answered: 0 or the refusal's number, what it gave, and the stores that it made.
#[derive(Clone, Copy, PartialEq, Debug)]
pub struct Answer {
    pub number: u32,
    pub address: u64,
    pub size: u64,
    pub made: u64,
}

/// What the Rust did: an answer, an error without a number, or a panic.
#[derive(Clone, Copy, PartialEq, Debug)]
enum Did {
    Answered(Answer),
    Failed,
    Panicked,
}

struct Random(u64);
impl Random {
    fn next(&mut self) -> u64 {
        self.0 = self.0.wrapping_add(0x9E37_79B9_7F4A_7C15);
        let x = (self.0 ^ (self.0 >> 30)).wrapping_mul(0xBF58_476D_1CE4_E5B9);
        let x = (x ^ (x >> 27)).wrapping_mul(0x94D0_49BB_1331_11EB);
        x ^ (x >> 31)
    }
    fn below(&mut self, n: u64) -> u64 {
        self.next() % n.max(1)
    }
    fn of<T: Copy>(&mut self, all: &[T]) -> T {
        all[self.below(all.len() as u64) as usize]
    }
}

fn open_rust(shared: &Shared, writable: bool) -> Option<Ufs<Image>> {
    catch_unwind(AssertUnwindSafe(|| Ufs::new(BlockReader::over(Image::over(shared), writable)).ok())).ok().flatten()
}

fn call_rust(ufs: &mut Ufs<Image>, shared: &Shared, call: Call, cut: Option<u64>) -> Did {
    shared.borrow_mut().begin(cut);
    let done = catch_unwind(AssertUnwindSafe(|| match call {
        Call::Alloc(size) => ufs.reach_blk_alloc(size),
        Call::Free(address, size) => ufs.reach_blk_free(address, size).map(|()| (0, 0)),
    }));
    let made = shared.borrow().log.len() as u64;
    match done {
        Ok(Ok((address, size))) => Did::Answered(Answer { number: 0, address, size, made }),
        Ok(Err(e)) => match e.raw_os_error() {
            Some(n) => Did::Answered(Answer { number: n as u32, address: 0, size: 0, made }),
            None => Did::Failed,
        },
        Err(_) => Did::Panicked,
    }
}

/// One card in the hands of both, and the figures of its run.
struct Pair {
    name: String,
    rust: Shared,
    port: Vec<u8>,
    ufs: Ufs<Image>,
    count: BTreeMap<String, u64>,
    smallest: BTreeMap<String, (usize, u64, u64, String)>,
    cuts: u64,
}

impl Pair {
    fn new(name: &str, bytes: &[u8]) -> Option<Pair> {
        let rust = image::shared(bytes.to_vec());
        let ufs = open_rust(&rust, true)?;
        Some(Pair { name: name.into(), rust, port: bytes.to_vec(), ufs, count: BTreeMap::new(), smallest: BTreeMap::new(), cuts: 0 })
    }

    fn differ(&self, call: Call, what: &str, rust: &dyn std::fmt::Debug, port: &dyn std::fmt::Debug) -> Result<(), String> {
        let held = self.rust.borrow();
        let at: Vec<String> = (0..self.port.len())
            .filter(|&i| held.bytes[i] != self.port[i])
            .take(16)
            .map(|i| format!("{i}: Rust {:02x}, port {:02x}", held.bytes[i], self.port[i]))
            .collect();
        Err(format!("card {}, {call:?}: {what}\n  Rust {rust:?}\n  port {port:?}\n  bytes that differ: {at:?}", self.name))
    }

    /// Counts the call under what it fell to, and keeps the smallest.
    fn note(&mut self, call: Call, what: String, more: String) {
        let (address, size) = match call { Call::Alloc(size) => (0, size), Call::Free(address, size) => (address, size) };
        let this = (self.port.len(), address, size, format!("{} {call:?}{more}", self.name));
        *self.count.entry(what.clone()).or_default() += 1;
        let least = self.smallest.entry(what).or_insert(this.clone());
        if this < *least {
            *least = this;
        }
    }

    fn same_bytes(&self) -> bool {
        self.rust.borrow().bytes == self.port
    }

    /// The call in both, whole and cut after each of its stores. What the Rust stored is undone and redone by its log.
    fn compare(&mut self, call: Call) -> Result<u64, String> {
        let card = Card::read(&self.port);
        let rule = rules::rule(&card, &self.port, call);
        let Rule::Same = rule else { return self.part(call, &card, rule) };
        let did = call_rust(&mut self.ufs, &self.rust, call, None);
        let answer = port::call(&mut self.port, true, call, None);
        if did != Did::Answered(answer) {
            return self.differ(call, "the answers differ", &did, &answer).map(|_| 0);
        }
        if !self.same_bytes() {
            return self.differ(call, "the images differ", &did, &answer).map(|_| 0);
        }
        let log = self.rust.borrow().log.clone();
        for k in 0..=answer.made {
            self.undo(&log);
            let mut fresh = open_rust(&self.rust, true).expect("opened before");
            let cut_did = call_rust(&mut fresh, &self.rust, call, Some(k));
            let cut = port::call(&mut self.port, true, call, Some(k));
            let made = self.rust.borrow().log.len() as u64;
            if cut != (Answer { made, ..answer }) || made != k.min(answer.made) {
                return self.differ(call, &format!("cut after {k}: the stores differ"), &(cut_did, made), &cut).map(|_| 0);
            }
            if !self.same_bytes() {
                return self.differ(call, &format!("cut after {k}: the images differ"), &cut_did, &cut).map(|_| 0);
            }
            self.cuts += 1;
        }
        self.rust.borrow_mut().begin(None);
        let kind = match call { Call::Alloc(_) => "blk_alloc", Call::Free(0, _) => "blk_free of 0", Call::Free(..) => "blk_free" };
        self.note(call, format!("same, {kind}, number {}, {} stores", answer.number, answer.made), String::new());
        Ok(if answer.number == 0 { answer.address } else { 0 })
    }

    /// Both images as before the call; they were the same after it.
    fn undo(&mut self, log: &[image::Store]) {
        let mut held = self.rust.borrow_mut();
        for s in log.iter().rev() {
            held.bytes[s.at..s.at + s.old.len()].copy_from_slice(&s.old);
            self.port[s.at..s.at + s.old.len()].copy_from_slice(&s.old);
        }
    }

    /// A call where a rule lets the two part: the port's side is held to the rule, and the Rust's image becomes the port's.
    fn part(&mut self, call: Call, card: &Card, rule: Rule) -> Result<u64, String> {
        let before = self.port.clone();
        let did = call_rust(&mut self.ufs, &self.rust, call, None);
        let answer = port::call(&mut self.port, true, call, None);
        let (right, panics) = match rule {
            Rule::Same => unreachable!("compared whole"),
            Rule::Refused { number, panics, .. } => {
                let whole = Answer { number, address: 0, size: 0, made: 0 };
                let cut = port::call(&mut self.port, true, call, Some(1));
                (answer == whole && cut == whole && self.port == before, panics)
            }
            Rule::Alignment => {
                let (after, made) = rules::freed(card, &before, call);
                (answer == Answer { number: 0, address: 0, size: 0, made } && self.port == after, true)
            }
        };
        if !right {
            return self.differ(call, &format!("the port does not keep to the rule {}", rule.name()), &did, &answer).map(|_| 0);
        }
        if panics && did != Did::Panicked {
            return self.differ(call, &format!("the Rust does not panic, as the rule {} has it", rule.name()), &did, &answer).map(|_| 0);
        }
        let stores = self.rust.borrow().log.len();
        let rust = match did {
            Did::Panicked if stores > 0 => "panics after stores".into(),
            Did::Panicked => "panics".into(),
            Did::Failed => "fails without a number".into(),
            Did::Answered(a) => format!("answers {}", a.number),
        };
        self.note(call, format!("{}, the Rust {rust}", rule.name()), format!("; the Rust {rust}, {stores} stores made; the port answers {}", answer.number));
        self.rust.borrow_mut().bytes.copy_from_slice(&self.port);
        self.ufs = open_rust(&self.rust, true).expect("opened before");
        Ok(0)
    }

    /// A read-only volume refuses in both, and nothing is stored.
    fn read_only(&mut self, call: Call) -> Result<u64, String> {
        let mut ufs = open_rust(&self.rust, false).expect("opened before");
        let did = call_rust(&mut ufs, &self.rust, call, None);
        let answer = port::call(&mut self.port, false, call, None);
        self.note(call, "same, read-only, number 30".into(), String::new());
        if did != Did::Answered(answer) || !self.same_bytes() {
            return self.differ(call, "read-only", &did, &answer).map(|_| 0);
        }
        Ok(0)
    }

    /// The port's recount, which the Rust has not, against the driver's own count of the maps.
    fn recount(&mut self) -> Result<u64, String> {
        let after = rules::recounted(&Card::read(&self.port), &self.port);
        let totals = port::recount(&mut self.port);
        *self.count.entry("recount, against the driver's count".into()).or_default() += 1;
        if self.port != after.0 || totals != (0, after.1, after.2) {
            return Err(format!("card {}: recount answers {totals:?}, the maps have {:?}", self.name, (after.1, after.2)));
        }
        self.rust.borrow_mut().bytes.copy_from_slice(&self.port);
        self.ufs = open_rust(&self.rust, true).expect("opened before");
        Ok(0)
    }
}

fn random_call(r: &mut Random, card: &Card, image: &[u8], given: &[u64]) -> Call {
    let size = match r.below(20) {
        0 => r.of(&[0, 1, card.fsize - 1, card.fsize + 1, card.bsize + card.fsize, card.bsize + 1, u64::MAX]),
        1 => r.next() >> r.below(64),
        2..=8 => card.bsize,
        _ => card.fsize * (1 + r.below(card.frag)),
    };
    if r.below(20) < 8 {
        return Call::Alloc(size);
    }
    let g = r.below(card.ncg);
    let start = g * card.fpg;
    let ndblk = card.ndblk(image, g);
    let n = (size / card.fsize).clamp(1, card.frag);
    let address = match r.below(16) {
        0 => r.of(&[0, 1, card.sblkno, card.dblkno - 1, ndblk - 1, ndblk, card.fpg - 1, card.fpg, card.fpg + 1]).wrapping_add(start),
        1 => r.of(&[card.ncg * card.fpg, card.ncg * card.fpg + 1, u64::MAX, u64::MAX - 7, 1 << 32, 1 << 63, card.bsize]),
        2 => r.next() >> r.below(64),
        3 => start + r.below(card.fpg + 2),
        4 => 0,
        5..=9 if !given.is_empty() => r.of(given) + r.below(card.frag - n + 1),
        _ => start + card.dblkno + r.below(ndblk - card.dblkno + 1) / card.frag * card.frag + r.below(card.frag - n + 1),
    };
    Call::Free(address, size)
}

/// The card with a map, counts or an end of its last group that a maker would not give it; it stays sound.
fn vary(r: &mut Random, bytes: &mut [u8]) {
    let card = Card::read(bytes);
    match r.below(8) {
        0..=1 => (),
        2 => card.fill(bytes, |_| 0),
        _ => {
            let (whole, loose) = (r.below(4), r.below(4));
            card.fill(bytes, |frag| match r.below(4) {
                n if n < whole => (1 << frag) - 1,
                n if n < whole + loose => r.next() as u16,
                _ => 0,
            })
        }
    }
    match r.below(6) {
        0 => {
            let g = r.below(card.ncg);
            let (count, total) = (rules::COUNT_EDGE, rules::TOTAL_EDGE);
            card.set_counts(bytes, g, r.of(&[0, 1, -1, -5, 3, count, -count]) as u32, r.of(&[0, 5, -1, count, -count]) as u32);
            card.set_totals(bytes, r.of(&[0, 1, 7, -1, -10, total, -total]) as u64, r.of(&[0, 2, -1, total, -total]) as u64);
        }
        1..=2 => card.shorten(bytes, r.below(card.frag)),
        _ => (),
    }
}

/// `only` leaves the block calls and the questions to inodes out.
fn run(count: u64, seed: u64, only: bool, paths: &[String]) -> Result<(), String> {
    let mut r = Random(seed);
    let mut total: BTreeMap<String, u64> = BTreeMap::new();
    let mut smallest: BTreeMap<String, (usize, u64, u64, String)> = BTreeMap::new();
    let (mut calls, mut cuts) = (0, 0);
    let mut cards = Vec::new();
    for path in paths {
        let name = path.rsplit('/').next().unwrap_or(path).to_string();
        let mut bytes = std::fs::read(path).map_err(|e| format!("{path}: {e}"))?;
        let said = if open_rust(&image::shared(bytes.clone()), true).is_some() {
            "opened"
        } else {
            rules::set_sbsize(&mut bytes);
            if open_rust(&image::shared(bytes.clone()), true).is_some() { "opened with sbsize set to fsize" } else { "not opened" }
        };
        println!("{name}: the Rust: {said}; the port: {}", port::open(&bytes));
        if said != "not opened" && port::open(&bytes) == 0 {
            let turned = open_rust(&image::shared(bytes.clone()), true).expect("opened above").reach_big_endian(bytes.clone()).map_err(|e| format!("{name}: {e}"))?;
            for (what, rust, port, changed) in rules::openings(&bytes).into_iter().chain([("the other order of bytes", true, 97, turned)]) {
                let is = (open_rust(&image::shared(changed.clone()), true).is_some(), port::open(&changed));
                if is != (rust, port) {
                    return Err(format!("{name}, opened with {what}: (the Rust opens it, the port's number) is {is:?}, not {:?}", (rust, port)));
                }
                if port == 97 && !(inodes::all_refused(&changed) && acts::all_refused(&changed)) {
                    return Err(format!("{name}, opened with {what}: a call does not answer 97"));
                }
                let opens = if rust { "opens" } else { "refuses" };
                *total.entry(format!("opening, {what}: the Rust {opens}, the port answers {port}")).or_default() += 1;
            }
            cards.push((name, bytes));
        }
    }
    if only {
        return acts::run(count, seed, &cards);
    }
    let start = Instant::now();
    while calls < count {
        for (name, bytes) in &cards {
            let mut bytes = bytes.clone();
            vary(&mut r, &mut bytes);
            if port::open(&bytes) != 0 {
                return Err(format!("{name}: a varied card is not sound"));
            }
            let mut pair = Pair::new(name, &bytes).ok_or(format!("{name}: the Rust does not open a varied card"))?;
            let mut given = Vec::new();
            let long = (4_000_000 / bytes.len() as u64).clamp(8, 60);
            for _ in 0..long {
                let call = random_call(&mut r, &Card::read(&pair.port), &pair.port, &given);
                let past_edge = Card::read(&pair.port).past_edge(&pair.port);
                match r.below(40) {
                    _ if past_edge => {
                        pair.compare(call)?;
                        calls += 1;
                        break;
                    }
                    0 => drop(pair.read_only(call)?),
                    1 => drop(pair.recount()?),
                    _ => match pair.compare(call)? {
                        0 => (),
                        address => given.push(address),
                    },
                }
                calls += 1;
            }
            cuts += pair.cuts;
            for (rule, n) in pair.count {
                *total.entry(rule).or_default() += n;
            }
            for (rule, this) in pair.smallest {
                let least = smallest.entry(rule).or_insert(this.clone());
                if this < *least {
                    *least = this;
                }
            }
        }
    }
    println!("seed {seed}: {calls} calls and {cuts} cut calls compared on {} cards in {:.1} s", cards.len(), start.elapsed().as_secs_f64());
    for (rule, n) in total {
        println!("  {n} {rule}{}", smallest.get(&rule).map_or(String::new(), |s| format!(": {}", s.3)));
    }
    acts::run(6 * count, seed, &cards)?;
    inodes::run(10 * count, &mut r, &cards)?;
    for (name, bytes) in &cards {
        time(name, bytes);
    }
    Ok(())
}

/// The time of a block given and taken back, in both. Each answer is looked at, and the images at the end.
fn time(name: &str, bytes: &[u8]) {
    let pairs = 20000;
    let size = Card::read(bytes).bsize;
    let mut image = bytes.to_vec();
    let start = Instant::now();
    for _ in 0..pairs {
        let given = port::call(&mut image, true, Call::Alloc(size), None);
        let freed = port::call(&mut image, true, Call::Free(given.address, size), None);
        if (given.number, given.made, freed.number, freed.made) != (0, 3, 0, 3) {
            return println!("{name}: not timed: the port answers {given:?}, then {freed:?}");
        }
    }
    let port = start.elapsed().as_nanos() as f64 / pairs as f64;
    let shared = image::shared(bytes.to_vec());
    shared.borrow_mut().logged = false;
    let mut ufs = open_rust(&shared, true).expect("opened before");
    let start = Instant::now();
    for _ in 0..pairs {
        let done = catch_unwind(AssertUnwindSafe(|| ufs.reach_blk_alloc(size).and_then(|(a, _)| ufs.reach_blk_free(a, size))));
        if !matches!(done, Ok(Ok(()))) {
            return println!("{name}: a block given and taken back: port {port:.0} ns; the Rust does not take it back (alignment)");
        }
    }
    let rust = start.elapsed().as_nanos() as f64 / pairs as f64;
    let same = image == bytes && shared.borrow().bytes == bytes;
    println!("{name}: a block given and taken back: port {port:.0} ns, Rust over the stand-in codec {rust:.0} ns; images as before: {same}");
}

fn main() {
    // The Rust's panics are answers; one of this program is not.
    std::panic::set_hook(Box::new(|p| {
        if p.location().is_some_and(|l| l.file().starts_with("driver")) {
            eprintln!("{p}");
        }
    }));
    let mut words: Vec<String> = std::env::args().skip(1).collect();
    let only = words.first().is_some_and(|w| w == "acts");
    if only {
        words.remove(0);
    }
    let (count, seed) = (words[0].parse().expect("a number of calls"), words[1].parse().expect("a seed"));
    let done = run(count, seed, only, &words[2..]);
    if let Err(first) = done {
        println!("seed {seed}: DIFFERENCE: {first}");
        std::process::exit(1);
    }
    println!("no difference");
}
