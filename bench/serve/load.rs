//! Clients of meters on this machine: `load PORT CLIENTS REQUESTS [set]`. Each client is a thread
//! with its own connection, which associates once and then sends REQUESTS GETs of the control
//! state, each after the response to the last one; with `set` SETs of the control mode. The first
//! eight clients connect to 127.0.0.1, the next eight to 127.0.0.2, and so on. Prints the
//! nanoseconds from the first request to the last response of all clients.
use std::io::{Read, Write};
use std::net::{Ipv4Addr, TcpStream};
use std::sync::Barrier;
use std::thread;
use std::time::Instant;

const AARQ: &[u8] = b"\x00\x01\x00\x01\x00\x01\x00\x38\x60\x36\xA1\x09\x06\x07\x60\x85\x74\x05\x08\x01\x01\x8A\x02\x07\x80\
\x8B\x07\x60\x85\x74\x05\x08\x02\x01\xAC\x0A\x80\x0812345678\xBE\x10\x04\x0E\x01\x00\x00\x00\x06\x5F\x1F\x04\x00\x00\x1C\x19\x04\x00";
const AARE: &[u8] = b"\x00\x01\x00\x01\x00\x01\x00\x2B\x61\x29\xA1\x09\x06\x07\x60\x85\x74\x05\x08\x01\x01\xA2\x03\x02\x01\x00\
\xA3\x05\xA1\x03\x02\x01\x00\xBE\x10\x04\x0E\x08\x00\x06\x5F\x1F\x04\x00\x00\x1C\x19\x04\x00\x00\x07";
const GET: &[u8] = b"\x00\x01\x00\x01\x00\x01\x00\x0D\xC0\x01\xC1\x00\x46\x00\x00\x60\x03\x0A\xFF\x03\x00";
const STATE: &[u8] = b"\x00\x01\x00\x01\x00\x01\x00\x06\xC4\x01\xC1\x00\x16\x01";
const SET: &[u8] = b"\x00\x01\x00\x01\x00\x01\x00\x0F\xC1\x01\xC1\x00\x46\x00\x00\x60\x03\x0A\xFF\x04\x00\x16\x02";
const SUCCESS: &[u8] = b"\x00\x01\x00\x01\x00\x01\x00\x04\xC5\x01\xC1\x00";

type Exchange = (&'static [u8], &'static [u8]);

// Sends a request and receives the response, which must be `answer`.
fn ask(meter: &mut TcpStream, request: &[u8], answer: &[u8]) {
    let mut came = [0; 128];
    meter.write_all(request).expect("the request is sent");
    meter.read_exact(&mut came[..answer.len()]).expect("an answer comes");
    assert!(came[..answer.len()] == *answer, "another answer: {:02X?}", &came[..answer.len()]);
}

// The number of clients of one address.
const EACH: u32 = 8;

// Sends the requests of one client; returns when it began and when it ended.
fn client(place: u32, port: u16, (request, answer): Exchange, requests: u32, begin: &Barrier) -> (Instant, Instant) {
    let address = Ipv4Addr::from(0x7F00_0001 + place / EACH);
    let mut meter = TcpStream::connect((address, port)).expect("a connection");
    meter.set_nodelay(true).expect("no delay");
    ask(&mut meter, AARQ, AARE);
    begin.wait();
    let begun = Instant::now();
    for _ in 0..requests {
        ask(&mut meter, request, answer);
    }
    (begun, Instant::now())
}

fn main() {
    let mut words: Vec<String> = std::env::args().skip(1).collect();
    let is_set = words.get(3).is_some_and(|word| word == "set");
    words.truncate(if is_set { 3 } else { words.len() });
    let numbers: Vec<u32> = words.iter().map(|word| word.parse().expect("a number")).collect();
    let [port, clients, requests] = numbers[..] else { panic!("load PORT CLIENTS REQUESTS [set]") };
    let exchange = if is_set { (SET, SUCCESS) } else { (GET, STATE) };
    let begin = Barrier::new(clients as usize);
    let times: Vec<(Instant, Instant)> = thread::scope(|scope| {
        let all: Vec<_> = (0..clients).map(|place| {
            let begin = &begin;
            scope.spawn(move || client(place, port as u16, exchange, requests, begin))
        }).collect();
        all.into_iter().map(|one| one.join().expect("a client")).collect()
    });
    let first = times.iter().map(|one| one.0).min().expect("a client");
    let last = times.iter().map(|one| one.1).max().expect("a client");
    println!("{}", last.duration_since(first).as_nanos());
}
