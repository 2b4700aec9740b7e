//! What `test_state speed` measures of states, in plain Rust. Build it by `rustc -O --edition 2021 state.rs`, and call it with
//! the words behind `speed`.
mod history;

use history::{Account, Buffer, LIMIT, MsgId, PAGE, Parts, Record, State, Texts};
use std::sync::Arc;
use std::time::Instant;

const BODY: &[u8] = b"a body of forty bytes, as many lines are";
const FIRST_SERIAL: u64 = 1_000_000_000_000;

#[derive(Clone, Copy)]
enum Order {
    Rising,
    Mixed,
}

fn moment(number: u64, order: Order) -> u64 {
    match order {
        Order::Rising => number,
        Order::Mixed => mixed(number),
    }
}

fn mixed(number: u64) -> u64 {
    number.wrapping_mul(2_654_435_769) % 4_294_967_296
}

fn id_text(number: u64) -> String {
    format!("n1-1763912345678-{}", FIRST_SERIAL + number)
}

fn channel() -> Buffer {
    Buffer::new(b"demo", b"net", b"#a")
}

fn post(buffer: &Buffer, number: u64, order: Order) -> Record {
    let id = MsgId(Arc::from(id_text(number).as_bytes()));
    Record(Arc::new(Parts {
        buffer: buffer.clone(),
        id,
        at: moment(number, order),
        kind: b'P',
        texts: Texts::new(b"bob!b@h", b"#a", BODY),
    }))
}

fn filled(buffer: &Buffer, held: u64, order: Order) -> State {
    let mut state = State::default();
    for number in 0..held {
        state.absorb(post(buffer, number, order));
    }
    state
}

fn question(held: u64, number: u64) -> String {
    let starts = held.saturating_sub(PAGE).max(1);
    format!("CHATHISTORY BEFORE #a msgid={} {PAGE}", id_text(PAGE + mixed(number) % starts))
}

fn answer_questions(state: &State, buffer: &Buffer, is_latest: bool, held: u64, count: u64) -> u64 {
    let mut out = Vec::new();
    let mut total = 0;
    for number in 0..count {
        out.clear();
        let line = if is_latest { String::from("CHATHISTORY LATEST #a * 100") } else { question(held, number) };
        state.answer(buffer, line.as_bytes(), &mut out).unwrap();
        total += out.len() as u64;
    }
    total
}

// Takes a floor of an account with `held` messages in `count` buffers, which lets half of each go, and counts what the last
// buffer has left.
fn take_account_floor(held: u64, count: u64) -> (Instant, u64) {
    let name = |number: u64| format!("#{number}");
    let buffers: Vec<Buffer> = (0..count).map(|number| Buffer::new(b"demo", b"net", name(number).as_bytes())).collect();
    let mut state = State::default();
    for round in 0..held / count.max(1) {
        for (buffer, number) in buffers.iter().zip(round * count..) {
            state.absorb(post(buffer, number, Order::Rising));
        }
    }
    let account = Account(Arc::from(&b"demo"[..]));
    let start = Instant::now();
    state.absorb_account_floor(account, held / 2);
    let left = buffers.last().map_or(0, |last| state.held[last].by_spot.len() as u64);
    (start, left)
}

fn main() {
    let words: Vec<String> = std::env::args().collect();
    let [_, what, held, count] = &words[..] else {
        return println!("usage: state newest|mixed|latest|before|delta|floor HELD COUNT");
    };
    let (held, count): (u64, u64) = (held.parse().unwrap(), count.parse().unwrap());
    if what == "floor" {
        let (start, left) = take_account_floor(held, count);
        return print_measure(what, held, count, start, left);
    }
    let order = if what == "mixed" { Order::Mixed } else { Order::Rising };
    let buffer = channel();
    let mut state = filled(&buffer, held, order);
    let is_taken = matches!(what.as_str(), "newest" | "mixed");
    let new = if is_taken { count } else { 0 };
    let posts: Vec<Record> = (0..new).map(|i| post(&buffer, held + i, order)).collect();
    let start = Instant::now();
    let total = match what.as_str() {
        "newest" | "mixed" => posts.into_iter().map(|post| u64::from(state.absorb(post))).sum(),
        "latest" | "before" => answer_questions(&state, &buffer, what == "latest", held, count),
        "delta" => (0..count).map(|_| state.delta(held.saturating_sub(LIMIT as u64)).len() as u64).sum::<u64>(),
        _ => return,
    };
    print_measure(what, held, count, start, total);
}

fn print_measure(what: &str, held: u64, count: u64, start: Instant, total: u64) {
    let each = start.elapsed().as_nanos() / u128::from(count.max(1));
    println!("{what} {held} {count}: {each} ns each, {total} in all");
}
