//! What `bnc replay` does of posts, pages of the latest messages and lists of buffers, in plain Rust over std's maps, to compare
//! its time with. Build it by `rustc -O --edition 2021 replay.rs`, and give it the same words and the same script on standard
//! input. It reads `C POST` lines, `CHATHISTORY LATEST <target> * <limit>` and `CHATHISTORY TARGETS timestamp=<time>
//! timestamp=<time> <limit>`, keeps the later of two posts of one id, and passes over all else.
use std::cmp::Ordering;
use std::collections::BTreeMap;
use std::io::{self, BufRead, BufWriter, Write};
use std::sync::Arc;

struct Post {
    id: Box<[u8]>,
    at: u64,
    kind: u8,
    target: Box<[u8]>,
    source: Box<[u8]>,
    body: Box<[u8]>,
}

#[derive(Default)]
struct Buffer {
    by_id: BTreeMap<Arc<[u8]>, (Arc<Post>, u64)>,
    by_moment: BTreeMap<(u64, Arc<[u8]>), Arc<Post>>,
}

/// The buffers of an account on a network, by their folded targets.
type Network = BTreeMap<Box<[u8]>, Buffer>;

#[derive(Default)]
struct State {
    accounts: BTreeMap<Box<[u8]>, BTreeMap<Box<[u8]>, Network>>,
    by_number: BTreeMap<u64, Arc<Post>>,
    front: u64,
}

/// Who asks, and how many batches were answered.
struct Session {
    account: Vec<u8>,
    network: Vec<u8>,
    batches: u64,
}

/// A value of a map, which is made where there is none.
fn entry<'a, T: Default>(map: &'a mut BTreeMap<Box<[u8]>, T>, key: &[u8]) -> &'a mut T {
    if !map.contains_key(key) {
        map.insert(key.into(), T::default());
    }
    map.get_mut(key).unwrap()
}

fn is_text(word: &[u8], most: usize) -> bool {
    (1..=most).contains(&word.len()) && !word.iter().any(|byte| matches!(byte, 0 | b'\r' | b'\n'))
}

fn order(one: &Post, other: &Post) -> Ordering {
    (other.at, one.kind, &one.source, &one.target, &one.body)
        .cmp(&(one.at, other.kind, &other.source, &other.target, &other.body))
}

impl State {
    fn take(&mut self, account: &[u8], network: &[u8], target: &[u8], post: Post) {
        let networks = entry(&mut self.accounts, account);
        let buffer = entry(entry(networks, network), target);
        if let Some((old, _)) = buffer.by_id.get(&*post.id) {
            if order(&post, old) != Ordering::Less {
                return;
            }
        }
        let id: Arc<[u8]> = Arc::from(&*post.id);
        let post = Arc::new(post);
        self.front += 1;
        self.by_number.insert(self.front, post.clone());
        buffer.by_moment.insert((post.at, id.clone()), post.clone());
        if let Some((old, number)) = buffer.by_id.insert(id.clone(), (post, self.front)) {
            buffer.by_moment.remove(&(old.at, id));
            self.by_number.remove(&number);
        }
    }

    fn network(&self, session: &Session) -> Option<&Network> {
        self.accounts.get(&*session.account)?.get(&*session.network)
    }

    fn latest(&self, session: &Session, target: &[u8], limit: usize, out: &mut impl Write) -> io::Result<()> {
        let reference = session.batches;
        write!(out, ":bnc.example BATCH +r{reference} chathistory ")?;
        out.write_all(target)?;
        out.write_all(b"\r\n")?;
        let network = self.network(session);
        if let Some(buffer) = network.and_then(|it| it.get(&*target.to_ascii_lowercase())) {
            let mut page: Vec<_> = buffer.by_moment.values().rev().take(limit).collect();
            page.reverse();
            for post in page {
                write!(out, "@batch=r{reference};msgid=")?;
                out.write_all(&post.id)?;
                write!(out, ";time={} :", time(post.at))?;
                out.write_all(&post.source)?;
                out.write_all(if post.kind == b'P' { b" PRIVMSG " } else { b" NOTICE " })?;
                out.write_all(&post.target)?;
                out.write_all(b" :")?;
                out.write_all(&post.body)?;
                out.write_all(b"\r\n")?;
            }
        }
        write!(out, ":bnc.example BATCH -r{reference}\r\n")
    }

    // The buffers whose latest message lies between the two moments: the first ones, or the last ones where the first moment
    // is the greater.
    fn targets(&self, session: &Session, one: u64, other: u64, limit: usize, out: &mut impl Write) -> io::Result<()> {
        let between = one.min(other) + 1..one.max(other);
        let mut found: Vec<(u64, &[u8])> = Vec::new();
        for (target, buffer) in self.network(session).into_iter().flatten() {
            if let Some(((at, _), _)) = buffer.by_moment.last_key_value() {
                if between.contains(at) {
                    found.push((*at, target));
                }
            }
        }
        found.sort_unstable();
        let skipped = if one < other { 0 } else { found.len().saturating_sub(limit) };
        let reference = session.batches;
        write!(out, ":bnc.example BATCH +r{reference} draft/chathistory-targets\r\n")?;
        for (at, target) in found.iter().skip(skipped).take(limit) {
            write!(out, "@batch=r{reference} :bnc.example CHATHISTORY TARGETS ")?;
            out.write_all(target)?;
            write!(out, " {}\r\n", time(*at))?;
        }
        write!(out, ":bnc.example BATCH -r{reference}\r\n")
    }
}

// The moment as IRCv3 server-time has it, by Howard Hinnant's `civil_from_days`.
fn time(at: u64) -> String {
    let (days, ms) = ((at / 86_400_000) as i64, at % 86_400_000);
    let z = days + 719_468;
    let (era, doe) = (z / 146_097, z % 146_097);
    let yoe = (doe - doe / 1460 + doe / 36_524 - doe / 146_096) / 365;
    let doy = doe - (365 * yoe + yoe / 4 - yoe / 100);
    let mp = (5 * doy + 2) / 153;
    let (day, month) = (doy - (153 * mp + 2) / 5 + 1, if mp < 10 { mp + 3 } else { mp - 9 });
    let year = yoe + era * 400 + i64::from(month <= 2);
    let (hour, minute, second) = (ms / 3_600_000, ms / 60_000 % 60, ms / 1000 % 60);
    format!("{year:04}-{month:02}-{day:02}T{hour:02}:{minute:02}:{second:02}.{:03}Z", ms % 1000)
}

fn number(word: &[u8]) -> Option<u64> {
    let text = std::str::from_utf8(word).ok()?;
    text.parse().ok().filter(|at| *at <= 253_402_300_799_999)
}

// A moment that is written as IRCv3 server-time has it, by Howard Hinnant's `days_from_civil`.
fn moment(text: &[u8]) -> Option<u64> {
    let part = |at: std::ops::Range<usize>| -> Option<i64> {
        let digits = text.get(at)?;
        digits.iter().all(u8::is_ascii_digit).then(|| digits.iter().fold(0, |n, d| n * 10 + i64::from(d - b'0')))
    };
    let marks = [(4, b'-'), (7, b'-'), (10, b'T'), (13, b':'), (16, b':'), (19, b'.'), (23, b'Z')];
    if text.len() != 24 || marks.iter().any(|(at, mark)| text[*at] != *mark) {
        return None;
    }
    let (year, month, day) = (part(0..4)?, part(5..7)?, part(8..10)?);
    let y = year - i64::from(month <= 2);
    let (era, mp) = (y.div_euclid(400), (month + 9) % 12);
    let yoe = y - era * 400;
    let doe = yoe * 365 + yoe / 4 - yoe / 100 + (153 * mp + 2) / 5 + day - 1;
    let seconds = (part(11..13)? * 60 + part(14..16)?) * 60 + part(17..19)?;
    let ms = ((era * 146_097 + doe - 719_468) * 86_400 + seconds) * 1000 + part(20..23)?;
    u64::try_from(ms).ok()
}

/// An account, a network, a target and what was posted there.
type Posted<'a> = (&'a [u8], &'a [u8], &'a [u8], Post);

fn post(line: &[u8]) -> Option<Posted<'_>> {
    let mut words = line.splitn(9, |byte| *byte == b' ');
    let (account, network) = (words.next()?, words.next()?);
    let (target, id) = (words.next()?, words.next()?);
    let (at, kind) = (number(words.next()?)?, words.next()?);
    let (to, source) = (words.next()?, words.next()?);
    let body = words.next()?.strip_prefix(b":")?;
    let is_lawful = is_text(account, 63) && is_text(network, 63) && is_text(target, 255)
        && is_text(id, 255) && is_text(to, 255) && is_text(source, 255)
        && (body.is_empty() || is_text(body, 8191)) && matches!(kind, b"P" | b"N");
    let post = Post {
        id: id.into(),
        at,
        kind: kind[0],
        target: to.into(),
        source: source.into(),
        body: body.into(),
    };
    is_lawful.then_some((account, network, target, post))
}

fn answer(state: &State, session: &mut Session, words: &[&[u8]], out: &mut impl Write) -> io::Result<()> {
    let most = |limit: &[u8]| number(limit).unwrap_or(0).min(100) as usize;
    let at = |word: &[u8]| word.strip_prefix(b"timestamp=").and_then(moment);
    session.batches += 1;
    match words {
        [b"LATEST", target, b"*", limit] => state.latest(session, target, most(limit), out),
        [b"TARGETS", one, other, limit] => match (at(one), at(other)) {
            (Some(one), Some(other)) => state.targets(session, one, other, most(limit), out),
            _ => Ok(()),
        },
        _ => Ok(()),
    }
}

fn main() -> io::Result<()> {
    let mut given = std::env::args().skip(2).map(String::into_bytes);
    let (account, network) = (given.next().unwrap_or_default(), given.next().unwrap_or_default());
    let mut session = Session { account, network, batches: 0 };
    let mut input = io::stdin().lock();
    let mut out = BufWriter::new(io::stdout().lock());
    let mut state = State::default();
    let mut line = Vec::new();
    while input.read_until(b'\n', &mut line)? > 0 {
        let text = line.trim_ascii_end();
        if let Some(rest) = text.strip_prefix(b"C POST ") {
            match post(rest) {
                Some((account, network, target, post)) => state.take(account, network, target, post),
                None => out.write_all(b"% BadForm\r\n")?,
            }
        } else if let Some(rest) = text.strip_prefix(b"CHATHISTORY ") {
            let words: Vec<_> = rest.split(|byte| *byte == b' ').collect();
            answer(&state, &mut session, &words, &mut out)?;
        }
        line.clear();
    }
    out.flush()
}
