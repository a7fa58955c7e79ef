//! The work of `meter_server_bench` in plain Rust, written without proofs in mind: a client
//! associates and then sends its requests. The arguments, the output and the frames are those of
//! `meter_server_bench`.

#[path = "plain_kinds/association.rs"]
mod association;
#[path = "plain_kinds/data.rs"]
mod data;
#[path = "program/src/exchanges.rt.bench"]
mod exchanges;
#[path = "plain_kinds/meter.rs"]
mod meter;
#[path = "plain_kinds/objects.rs"]
mod objects;
#[path = "plain_kinds/services.rs"]
mod services;
#[path = "plain_kinds/session.rs"]
mod session;
#[path = "plain_kinds/switch.rs"]
mod switch;

use crate::meter::Meter;
use exchanges::Exchange;
use session::{serve, End};
use std::hint::black_box;
use std::io::{self, Read};
use std::time::Instant;

// A stream that returns at most a piece at each read.
struct Input<'a> {
    rest: &'a [u8],
    piece: usize,
}

impl Read for Input<'_> {
    fn read(&mut self, buffer: &mut [u8]) -> io::Result<usize> {
        let count = self.rest.len().min(buffer.len()).min(self.piece);
        let (now, later) = self.rest.split_at(count);
        buffer[..count].copy_from_slice(now);
        self.rest = later;
        Ok(count)
    }
}

// Returns the bytes of the client: the first frames, and the other ones `times` times.
fn talk(first: &[u8], other: &[u8], times: usize) -> Vec<u8> {
    let mut bytes = first.to_vec();
    for _ in 0..times {
        bytes.extend_from_slice(other);
    }
    bytes
}

// The bytes that a new meter writes to a client that sends these in pieces.
fn answers(requests: &[u8], piece: usize) -> Vec<u8> {
    let mut meter = Meter::new(b"RELAY1");
    let mut out = Vec::new();
    let end =
        serve(&mut Input { rest: requests, piece }, &mut out, &mut meter, b"12345678").unwrap();
    assert_eq!(end, End::Closed);
    out
}

// Returns the nanoseconds of one session.
fn time_of(requests: &[u8], piece: usize) -> u128 {
    let start = Instant::now();
    black_box(answers(black_box(requests), piece));
    start.elapsed().as_nanos()
}

fn main() {
    let words: Vec<String> = std::env::args().collect();
    let count: Option<usize> = words.get(1).map(|count| count.parse().unwrap_or(0));
    let kind = words.get(2).map_or("get", String::as_str);
    let exchange = Exchange::new(kind).expect("a kind of request");
    let units = exchange.units as usize;
    let times = count.unwrap_or(10) / units;
    let requests = talk(exchange.opening, exchange.requests, times);
    let expected = talk(exchange.opened, exchange.answers, times);
    let (count_in, count_out) = (requests.len(), expected.len());
    println!("{} {}: {count_in} bytes in, {count_out} bytes out", times * units, exchange.name);
    let is_right = |piece| answers(&requests, piece) == expected;
    println!("answered rightly: {}, and byte by byte: {}", is_right(1_024), is_right(1));
    if count.is_some() {
        let mean = |piece| time_of(&requests, piece) / (times * units).max(1) as u128;
        println!("whole {} ns, single {} ns", mean(1_024), mean(1));
    }
}
