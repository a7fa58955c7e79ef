//! A bare server with one event loop over epoll, which only does the socket work of a fleet: it
//! reads frames by their headers, and answers each AARQ with the meter's AARE and any other frame
//! with the meter's response to a GET of the control state. Like the fleet, it uses edge-triggered
//! events and reads until a read blocks. It prints its port, and runs until it is killed.
use std::collections::HashMap;
use std::io::{self, ErrorKind, Read, Write};
use std::net::{TcpListener, TcpStream};
use std::os::fd::AsRawFd;

const AARE: &[u8] = b"\x00\x01\x00\x01\x00\x01\x00\x2B\x61\x29\xA1\x09\x06\x07\x60\x85\x74\x05\x08\x01\x01\xA2\x03\x02\x01\x00\
\xA3\x05\xA1\x03\x02\x01\x00\xBE\x10\x04\x0E\x08\x00\x06\x5F\x1F\x04\x00\x00\x1C\x19\x04\x00\x00\x07";
const STATE: &[u8] = b"\x00\x01\x00\x01\x00\x01\x00\x06\xC4\x01\xC1\x00\x16\x01";
const HEADER: usize = 8;
const MAX_EVENTS: usize = 1_024;
const ADD: i32 = 1; // EPOLL_CTL_ADD
const IN: u32 = 1; // EPOLLIN
const OUT: u32 = 4; // EPOLLOUT
const EDGES: u32 = 1 << 31; // EPOLLET

#[repr(C, packed)]
#[derive(Clone, Copy)]
struct Event {
    events: u32,
    data: u64,
}

extern "C" {
    fn epoll_create1(flags: i32) -> i32;
    fn epoll_ctl(poll: i32, operation: i32, file: i32, event: *mut Event) -> i32;
    fn epoll_wait(poll: i32, events: *mut Event, count: i32, timeout: i32) -> i32;
}

struct Client {
    stream: TcpStream,
    text: Vec<u8>,
}

// The length of the first complete frame of a text.
fn whole(text: &[u8]) -> Option<usize> {
    let length = HEADER + usize::from(u16::from_be_bytes([*text.get(6)?, *text.get(7)?]));
    (text.len() >= length).then_some(length)
}

fn register(poll: i32, file: i32, events: u32) {
    let mut event = Event { events, data: file as u64 };
    assert!(unsafe { epoll_ctl(poll, ADD, file, &mut event) } == 0, "a registration");
}

// Answers the frames of a client until a read blocks; false if the client has gone.
fn serve(client: &mut Client, buffer: &mut [u8]) -> bool {
    loop {
        match client.stream.read(buffer) {
            Ok(0) => return false,
            Ok(count) => client.text.extend_from_slice(&buffer[..count]),
            Err(error) if error.kind() == ErrorKind::WouldBlock => return true,
            Err(_) => return false,
        }
        while let Some(length) = whole(&client.text) {
            let answer = if client.text.get(HEADER) == Some(&0x60) { AARE } else { STATE };
            if client.stream.write_all(answer).is_err() {
                return false;
            }
            client.text.drain(..length);
        }
    }
}

fn accept(poll: i32, listener: &TcpListener, clients: &mut HashMap<i32, Client>) {
    while let Ok((stream, _)) = listener.accept() {
        stream.set_nonblocking(true).expect("a stream that does not block");
        stream.set_nodelay(true).expect("no delay");
        let file = stream.as_raw_fd();
        register(poll, file, IN | OUT | EDGES);
        clients.insert(file, Client { stream, text: Vec::with_capacity(2_048) });
    }
}

fn main() -> io::Result<()> {
    let listener = TcpListener::bind("0.0.0.0:0")?;
    listener.set_nonblocking(true)?;
    println!("{}", listener.local_addr()?.port());
    let poll = unsafe { epoll_create1(0) };
    register(poll, listener.as_raw_fd(), IN | EDGES);
    let mut clients = HashMap::new();
    let mut events = [Event { events: 0, data: 0 }; MAX_EVENTS];
    let mut buffer = [0; 4_096];
    loop {
        let count = unsafe { epoll_wait(poll, events.as_mut_ptr(), MAX_EVENTS as i32, -1) };
        for event in &events[..count.max(0) as usize] {
            let file = event.data as i32;
            if file == listener.as_raw_fd() {
                accept(poll, &listener, &mut clients);
            } else if clients.get_mut(&file).is_some_and(|client| !serve(client, &mut buffer)) {
                clients.remove(&file);
            }
        }
    }
}
