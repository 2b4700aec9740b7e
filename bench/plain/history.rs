//! A history in plain Rust: the maps of a state with the same keys, over std's, and the pages and deltas that are read off it.
#![allow(dead_code)]
use std::cmp::Ordering;
use std::collections::BTreeMap;
use std::io::{self, Write};
use std::ops::Bound;
use std::sync::Arc;

pub const PAGE: u64 = 100;
pub const LIMIT: usize = 256;

pub struct Texts {
    pub bytes: Vec<u8>,
    pub second: u16,
    pub third: u16,
}

impl Texts {
    pub fn new(first: &[u8], second: &[u8], third: &[u8]) -> Texts {
        let ends = first.len() + second.len();
        let mut bytes = Vec::with_capacity(ends + third.len());
        bytes.extend_from_slice(first);
        bytes.extend_from_slice(second);
        bytes.extend_from_slice(third);
        Texts { bytes, second: first.len() as u16, third: ends as u16 }
    }

    pub fn parts(&self) -> (&[u8], &[u8], &[u8]) {
        let (second, third) = (self.second as usize, self.third as usize);
        (&self.bytes[..second], &self.bytes[second..third], &self.bytes[third..])
    }
}

#[derive(Clone, PartialEq, Eq, PartialOrd, Ord)]
pub struct Account(pub Arc<[u8]>);

pub struct Names {
    pub account: Account,
    // the network and the target
    pub texts: Texts,
}

#[derive(Clone)]
pub struct Buffer(pub Arc<Names>);

impl Buffer {
    pub fn new(account: &[u8], network: &[u8], target: &[u8]) -> Buffer {
        let account = Account(Arc::from(account));
        Buffer(Arc::new(Names { account, texts: Texts::new(network, target, b"") }))
    }

    pub fn target(&self) -> &[u8] {
        self.0.texts.parts().1
    }

    pub fn names(&self) -> (&Account, (&[u8], &[u8], &[u8])) {
        (&self.0.account, self.0.texts.parts())
    }
}

impl Ord for Buffer {
    fn cmp(&self, other: &Buffer) -> Ordering {
        if Arc::ptr_eq(&self.0, &other.0) {
            return Ordering::Equal;
        }
        self.names().cmp(&other.names())
    }
}

impl PartialOrd for Buffer {
    fn partial_cmp(&self, other: &Buffer) -> Option<Ordering> {
        Some(self.cmp(other))
    }
}

impl PartialEq for Buffer {
    fn eq(&self, other: &Buffer) -> bool {
        self.cmp(other) == Ordering::Equal
    }
}

impl Eq for Buffer {}

#[derive(Clone, PartialEq, Eq, PartialOrd, Ord)]
pub struct MsgId(pub Arc<[u8]>);

impl std::borrow::Borrow<[u8]> for MsgId {
    fn borrow(&self) -> &[u8] {
        &self.0
    }
}

pub struct Parts {
    pub buffer: Buffer,
    pub id: MsgId,
    pub at: u64,
    pub kind: u8,
    pub texts: Texts,
}

#[derive(Clone)]
pub struct Record(pub Arc<Parts>);

#[derive(Clone, PartialEq, Eq, PartialOrd, Ord)]
pub struct Spot {
    pub at: u64,
    pub id: Option<MsgId>,
}

pub enum Standing {
    Kept(Record, u64),
    Gone(Option<u64>, u64),
}

#[derive(Default)]
pub struct Held {
    pub by_id: BTreeMap<MsgId, Standing>,
    pub by_spot: BTreeMap<Spot, Record>,
    pub floor: Option<(u64, u64)>,
    pub marker: Option<(u64, u64)>,
}

pub enum Place {
    Posted(Record),
    Redacted(Arc<(Buffer, MsgId)>),
    Stamped(Buffer),
    Floored(Account),
}

impl Place {
    pub fn message(&self) -> Option<(&Buffer, &MsgId)> {
        match self {
            Place::Posted(post) => Some((&post.0.buffer, &post.0.id)),
            Place::Redacted(name) => Some((&name.0, &name.1)),
            Place::Stamped(_) | Place::Floored(_) => None,
        }
    }
}

#[derive(Default)]
pub struct State {
    pub accounts: BTreeMap<Account, (u64, u64)>,
    pub held: BTreeMap<Buffer, Held>,
    pub index: BTreeMap<u64, Place>,
    pub front: u64,
}

fn goes_before(one: &Parts, other: &Parts) -> bool {
    (other.at, one.kind, one.texts.parts()) < (one.at, other.kind, other.texts.parts())
}

impl State {
    // Takes a post. The messages of the measures are never redacted.
    pub fn absorb(&mut self, post: Record) -> bool {
        let parts = &post.0;
        let mut before = None;
        let around = self.account_floor(&parts.buffer.0.account);
        if let Some(held) = self.held.get(&parts.buffer) {
            let floor = held.floor.map_or(0, |stamp| stamp.0).max(around);
            match held.by_id.get(&parts.id) {
                Some(Standing::Kept(old, number)) => {
                    if !goes_before(parts, &old.0) {
                        return false;
                    }
                    before = Some((old.0.at, *number));
                }
                Some(Standing::Gone(..)) => return false,
                None if parts.at < floor => return false,
                None => {}
            }
        } else if parts.at < around {
            return false;
        }
        let number = self.front + 1;
        self.index.insert(number, Place::Posted(post.clone()));
        let held = self.held.entry(parts.buffer.clone()).or_default();
        let spot = Spot { at: parts.at, id: Some(parts.id.clone()) };
        held.by_spot.insert(spot, post.clone());
        if let Some((at, number)) = before {
            held.by_spot.remove(&Spot { at, id: Some(parts.id.clone()) });
            self.index.remove(&number);
        }
        held.by_id.insert(parts.id.clone(), Standing::Kept(post.clone(), number));
        self.front = number;
        true
    }

    fn account_floor(&self, account: &Account) -> u64 {
        self.accounts.get(account).map_or(0, |stamp| stamp.0)
    }

    // Takes a floor of an account. What is older goes from each of its buffers, and so do own floors that are no higher.
    pub fn absorb_account_floor(&mut self, account: Account, at: u64) -> bool {
        if at <= self.account_floor(&account) {
            return false;
        }
        self.front += 1;
        self.index.insert(self.front, Place::Floored(account.clone()));
        for (_, held) in self.held.iter_mut().filter(|(buffer, _)| buffer.0.account == account) {
            while let Some(entry) = held.by_spot.first_entry().filter(|entry| entry.key().at < at) {
                let post = entry.remove();
                if let Some(Standing::Kept(_, number)) = held.by_id.remove(&post.0.id) {
                    self.index.remove(&number);
                }
            }
            if let Some((_, number)) = held.floor.take_if(|stamp| stamp.0 <= at) {
                self.index.remove(&number);
            }
        }
        if let Some((_, number)) = self.accounts.insert(account, (at, self.front)) {
            self.index.remove(&number);
        }
        true
    }

    // The last records before a place.
    pub fn page(&self, buffer: &Buffer, before: Bound<&Spot>, limit: usize) -> Vec<&Record> {
        let Some(held) = self.held.get(buffer) else {
            return Vec::new();
        };
        let records = held.by_spot.range((Bound::Unbounded, before)).rev().take(limit);
        let mut page: Vec<_> = records.map(|(_, record)| record).collect();
        page.reverse();
        page
    }

    // Answers the two forms of CHATHISTORY that are asked, and no other line.
    pub fn answer(&self, buffer: &Buffer, line: &[u8], out: &mut Vec<u8>) -> io::Result<()> {
        let words: Vec<_> = line.split(|byte| *byte == b' ').collect();
        let [b"CHATHISTORY", subcommand, target, selector, limit] = words[..] else {
            return Ok(());
        };
        if target != buffer.target() {
            return Ok(());
        }
        let limit = number(limit).unwrap_or(0).min(PAGE) as usize;
        match (subcommand, selector.strip_prefix(b"msgid=")) {
            (b"LATEST", None) => write_page(&self.page(buffer, Bound::Unbounded, limit), target, out),
            (b"BEFORE", Some(id)) => match self.held[buffer].by_id.get(id) {
                Some(Standing::Kept(post, _)) => {
                    let spot = Spot { at: post.0.at, id: Some(post.0.id.clone()) };
                    write_page(&self.page(buffer, Bound::Excluded(&spot), limit), target, out)
                }
                _ => Ok(()),
            },
            _ => Ok(()),
        }
    }

    pub fn delta(&self, from: u64) -> Vec<Record> {
        let mut records = Vec::new();
        let newer = self.index.range((Bound::Excluded(from), Bound::Unbounded));
        for (_, place) in newer.take(LIMIT) {
            if let Some((buffer, id)) = place.message() {
                if let Some(Standing::Kept(post, _)) = self.held[buffer].by_id.get(id) {
                    records.push(post.clone());
                }
            }
        }
        records
    }
}

fn number(word: &[u8]) -> Option<u64> {
    std::str::from_utf8(word).ok()?.parse().ok()
}

// The page as a batch, for a session that holds every capability.
fn write_page(page: &[&Record], target: &[u8], out: &mut Vec<u8>) -> io::Result<()> {
    out.write_all(b":bnc.example BATCH +r1 chathistory ")?;
    out.write_all(target)?;
    out.write_all(b"\r\n")?;
    for Record(post) in page {
        let (source, target, body) = post.texts.parts();
        out.write_all(b"@batch=r1;msgid=")?;
        out.write_all(&post.id.0)?;
        out.write_all(b";time=")?;
        write_time(post.at, out)?;
        out.write_all(b" :")?;
        out.write_all(source)?;
        out.write_all(if post.kind == b'P' { b" PRIVMSG " } else { b" NOTICE " })?;
        out.write_all(target)?;
        out.write_all(b" :")?;
        out.write_all(body)?;
        out.write_all(b"\r\n")?;
    }
    out.write_all(b":bnc.example BATCH -r1\r\n")
}

// The moment as IRCv3 server-time has it, by Howard Hinnant's `civil_from_days`.
pub fn write_time(at: u64, out: &mut Vec<u8>) -> io::Result<()> {
    let (days, ms) = ((at / 86_400_000) as i64, at % 86_400_000);
    let z = days + 719_468;
    let (era, doe) = (z / 146_097, z % 146_097);
    let yoe = (doe - doe / 1460 + doe / 36_524 - doe / 146_096) / 365;
    let doy = doe - (365 * yoe + yoe / 4 - yoe / 100);
    let mp = (5 * doy + 2) / 153;
    let (day, month) = (doy - (153 * mp + 2) / 5 + 1, if mp < 10 { mp + 3 } else { mp - 9 });
    let year = yoe + era * 400 + i64::from(month <= 2);
    let (hour, minute, second) = (ms / 3_600_000, ms / 60_000 % 60, ms / 1000 % 60);
    let part = ms % 1000;
    write!(out, "{year:04}-{month:02}-{day:02}T{hour:02}:{minute:02}:{second:02}.{part:03}Z")
}
