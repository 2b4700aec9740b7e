//! What `test_state speed lines` measures, in plain Rust, with the same feeder and the same reading of a line.
//! Build it by `rustc -O --edition 2021 lines.rs`, and call it with the words behind `speed`.
use std::time::Instant;

const ROOM: usize = 8703;
const LINE: &[u8] = b"@time=1970-01-01T00:00:01.000Z :bob!bob@host.example PRIVMSG #channel :how are you all this summer\r\n";
const BLOCK_LINES: usize = 1_000;

struct Feeder {
    buffer: Vec<u8>,
    start: usize,
    searched: usize,
    in_long_line: bool,
}

enum Next<'a> {
    Line(&'a [u8]),
    TooLong,
    More,
}

fn find_lf(bytes: &[u8]) -> Option<usize> {
    bytes.iter().position(|b| *b == b'\n')
}

fn without_cr(bytes: &[u8]) -> &[u8] {
    bytes.strip_suffix(b"\r").unwrap_or(bytes)
}

impl Feeder {
    fn new() -> Feeder {
        Feeder { buffer: Vec::with_capacity(ROOM), start: 0, searched: 0, in_long_line: false }
    }

    fn feed(&mut self, piece: &[u8]) -> usize {
        let mut skipped = 0;
        if self.in_long_line {
            let Some(at) = find_lf(piece) else {
                return piece.len();
            };
            skipped = at + 1;
        }
        self.in_long_line = false;
        let rest = &piece[skipped..];
        let n = rest.len().min(ROOM - (self.buffer.len() - self.start));
        if n > ROOM - self.buffer.len() {
            self.buffer.drain(..self.start);
            self.searched -= self.start;
            self.start = 0;
        }
        self.buffer.extend_from_slice(&rest[..n]);
        skipped + n
    }

    fn next_line(&mut self) -> Next<'_> {
        if self.in_long_line {
            return Next::More;
        }
        match find_lf(&self.buffer[self.searched..]) {
            Some(at) => {
                let from = self.start;
                let end = self.searched + at;
                self.start = end + 1;
                self.searched = end + 1;
                Next::Line(without_cr(&self.buffer[from..end]))
            }
            None if self.buffer.len() - self.start >= ROOM => {
                self.buffer.clear();
                self.start = 0;
                self.searched = 0;
                self.in_long_line = true;
                Next::TooLong
            }
            None => {
                self.searched = self.buffer.len();
                Next::More
            }
        }
    }
}

struct Line<'a> {
    tags: Option<&'a [u8]>,
    source: Option<&'a [u8]>,
    command: &'a [u8],
    parameters: [&'a [u8]; 15],
    count: usize,
}

fn skip_spaces(bytes: &[u8]) -> &[u8] {
    let at = bytes.iter().position(|b| *b != b' ').unwrap_or(bytes.len());
    &bytes[at..]
}

fn split_word(bytes: &[u8]) -> (&[u8], &[u8]) {
    let at = bytes.iter().position(|b| *b == b' ').unwrap_or(bytes.len());
    bytes.split_at(at)
}

fn is_command(text: &[u8]) -> bool {
    (!text.is_empty() && text.iter().all(u8::is_ascii_alphabetic)) || (text.len() == 3 && text.iter().all(u8::is_ascii_digit))
}

fn read_line(bytes: &[u8]) -> Option<Line<'_>> {
    let (tags, after_tags) = match bytes.strip_prefix(b"@") {
        Some(body) => {
            let (tags, tail) = split_word(body);
            (Some(tags), tail.strip_prefix(b" ").unwrap_or(tail))
        }
        None => (None, bytes),
    };
    let text = skip_spaces(after_tags);
    let (source, after_source) = match text.strip_prefix(b":") {
        Some(body) => {
            let (source, tail) = split_word(body);
            (Some(source), skip_spaces(tail))
        }
        None => (None, text),
    };
    let (command, after_command) = split_word(after_source);
    if skip_spaces(bytes).is_empty()
        || tags.is_some_and(|t| t.len() > 8189)
        || after_tags.len() > 510
        || bytes.iter().any(|b| *b == 0 || *b == b'\n' || *b == b'\r')
        || source.is_some_and(|s| s.is_empty())
        || !is_command(command)
    {
        return None;
    }
    let mut parameters = [bytes; 15];
    let mut rest = after_command;
    let mut count = 0;
    loop {
        let text = skip_spaces(rest);
        if text.is_empty() {
            break;
        }
        if text[0] == b':' || count == 14 {
            parameters[count] = text.strip_prefix(b":").unwrap_or(text);
            count += 1;
            break;
        }
        let (word, after) = split_word(text);
        parameters[count] = word;
        rest = after;
        count += 1;
    }
    Some(Line { tags, source, command, parameters, count })
}

fn take_lines(feeder: &mut Feeder) -> u64 {
    let mut bytes = 0;
    loop {
        match feeder.next_line() {
            Next::Line(text) => {
                if let Some(line) = read_line(text) {
                    std::hint::black_box((line.tags, line.source, line.command));
                    bytes += line.parameters[..line.count].iter().map(|p| p.len() as u64).sum::<u64>();
                }
            }
            Next::TooLong => {}
            Next::More => return bytes,
        }
    }
}

fn main() {
    let words: Vec<String> = std::env::args().collect();
    let [_, what, size, count] = &words[..] else {
        return println!("usage: lines lines SIZE COUNT");
    };
    let (size, count): (usize, u64) = (size.parse().unwrap(), count.parse().unwrap());
    let block = LINE.repeat(BLOCK_LINES);
    let mut feeder = Feeder::new();
    let mut total = 0;
    let start = Instant::now();
    for _ in 0..count {
        for piece in block.chunks(size) {
            let taken = feeder.feed(piece);
            total += take_lines(&mut feeder);
            feeder.feed(&piece[taken..]);
            total += take_lines(&mut feeder);
        }
    }
    let each = start.elapsed().as_nanos() / u128::from(count.max(1));
    println!("{what} {size} {count}: {each} ns each, {total} in all");
}
