//! A relay in plain Rust that keeps what it relays. Of each message of a server it makes a record, puts that into so many states,
//! and writes it to one client with its moment and an id that it makes. It knows no other line, no session and no other client.
//! Build it by `rustc -O --edition 2021 kept_relay.rs`.
//!
//!     kept_relay SERVER CLIENT STATES      takes a connection at port CLIENT of 127.0.0.1, and then connects to port SERVER
mod history;

use history::{write_time, Buffer, MsgId, Parts, Record, State, Texts};
use std::ffi::{c_int, c_void};
use std::io::{self, Read, Write};
use std::net::{TcpListener, TcpStream};
use std::sync::Arc;
use std::time::{SystemTime, UNIX_EPOCH};

const ID: &[u8] = b"n1-1763912345678-";
const FIRST_SERIAL: u64 = 1_000_000_000_000;
const LINE_LIMIT: usize = 510;

extern "C" {
    fn memchr(text: *const c_void, byte: c_int, length: usize) -> *const c_void;
}

fn find(text: &[u8], byte: u8) -> Option<usize> {
    // Safety: `memchr` reads the bytes of the slice, and answers none of them or null.
    let found = unsafe { memchr(text.as_ptr().cast(), c_int::from(byte), text.len()) };
    (!found.is_null()).then(|| found as usize - text.as_ptr() as usize)
}

fn split(text: &[u8], byte: u8) -> Option<(&[u8], &[u8])> {
    let at = find(text, byte)?;
    Some((&text[..at], &text[at + 1..]))
}

// The source, the letter of the command, the target and the body of a message.
fn message_in(line: &[u8]) -> Option<(&[u8], u8, &[u8], &[u8])> {
    if line.len() > LINE_LIMIT || find(line, 0).is_some() || find(line, b'\r').is_some() {
        return None;
    }
    let (source, rest) = split(line.strip_prefix(b":")?, b' ')?;
    let (command, rest) = split(rest, b' ')?;
    let (target, body) = split(rest, b' ')?;
    let kind = match command {
        b"PRIVMSG" => b'P',
        b"NOTICE" => b'N',
        _ => return None,
    };
    Some((source, kind, target, body.strip_prefix(b":").unwrap_or(body)))
}

struct Relay {
    buffer: Buffer,
    states: Vec<State>,
    serial: u64,
    records: Vec<Record>,
    // the moment that was written last, and its text
    at: u64,
    time: Vec<u8>,
    out: Vec<u8>,
}

impl Relay {
    fn id(&mut self) -> MsgId {
        let mut text = [0; 30];
        text[..ID.len()].copy_from_slice(ID);
        let mut rest = self.serial;
        for digit in text[ID.len()..].iter_mut().rev() {
            *digit = b'0' + (rest % 10) as u8;
            rest /= 10;
        }
        self.serial += 1;
        MsgId(Arc::from(&text[..]))
    }

    fn take_line(&mut self, line: &[u8], at: u64) {
        let Some((source, kind, target, body)) = message_in(line) else {
            return;
        };
        if !target.eq_ignore_ascii_case(self.buffer.target()) {
            self.buffer = Buffer::new(b"demo", b"net", &target.to_ascii_lowercase());
        }
        let (buffer, id, texts) = (self.buffer.clone(), self.id(), Texts::new(source, target, body));
        self.records.push(Record(Arc::new(Parts { buffer, id, at, kind, texts })));
    }

    // Keeps the messages that came, and writes them.
    fn tell(&mut self, client: &mut TcpStream) -> io::Result<()> {
        for state in &mut self.states {
            for record in &self.records {
                state.absorb(record.clone());
            }
        }
        for Record(post) in self.records.drain(..) {
            if self.at != post.at {
                self.time.clear();
                write_time(post.at, &mut self.time)?;
                self.at = post.at;
            }
            let (source, target, body) = post.texts.parts();
            let command: &[u8] = if post.kind == b'P' { b" PRIVMSG " } else { b" NOTICE " };
            for part in [b"@msgid=", &*post.id.0, b";time=", &self.time, b" :", source, command, target, b" :", body, b"\r\n"] {
                self.out.extend_from_slice(part);
            }
        }
        client.write_all(&self.out)?;
        self.out.clear();
        Ok(())
    }
}

fn now() -> u64 {
    SystemTime::now().duration_since(UNIX_EPOCH).map_or(0, |since| since.as_millis() as u64)
}

fn main() -> io::Result<()> {
    let words: Vec<String> = std::env::args().collect();
    let [_, server, client, states] = &words[..] else {
        return Err(io::ErrorKind::InvalidInput.into());
    };
    let mut relay = Relay {
        buffer: Buffer::new(b"demo", b"net", b"#a"),
        states: (0..states.parse().unwrap()).map(|_| State::default()).collect(),
        serial: FIRST_SERIAL,
        records: Vec::new(),
        at: 0,
        time: Vec::new(),
        out: Vec::new(),
    };
    let (mut client, _) = TcpListener::bind(format!("127.0.0.1:{client}"))?.accept()?;
    let mut server = TcpStream::connect(format!("127.0.0.1:{server}"))?;
    let (mut piece, mut held) = (vec![0; 16384], Vec::new());
    loop {
        let count = server.read(&mut piece)?;
        if count == 0 {
            return Ok(());
        }
        held.extend_from_slice(&piece[..count]);
        let (at, mut begin) = (now(), 0);
        while let Some(length) = find(&held[begin..], b'\n') {
            let line = &held[begin..begin + length];
            relay.take_line(line.strip_suffix(b"\r").unwrap_or(line), at);
            begin += length + 1;
        }
        held.drain(..begin);
        relay.tell(&mut client)?;
    }
}
