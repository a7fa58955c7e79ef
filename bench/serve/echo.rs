//! A bare server that only does the socket work of the meter: a thread for each connection reads
//! frames by their headers, and answers each AARQ with the meter's AARE and any other frame with
//! the meter's response to a GET of the control state. It prints its port, and ends with its
//! standard input.
use std::io::{self, Read, Write};
use std::net::{TcpListener, TcpStream};
use std::thread;

const AARE: &[u8] = b"\x00\x01\x00\x01\x00\x01\x00\x2B\x61\x29\xA1\x09\x06\x07\x60\x85\x74\x05\x08\x01\x01\xA2\x03\x02\x01\x00\
\xA3\x05\xA1\x03\x02\x01\x00\xBE\x10\x04\x0E\x08\x00\x06\x5F\x1F\x04\x00\x00\x1C\x19\x04\x00\x00\x07";
const STATE: &[u8] = b"\x00\x01\x00\x01\x00\x01\x00\x06\xC4\x01\xC1\x00\x16\x01";
const HEADER: usize = 8;

// The length of the first complete frame of a text.
fn whole(text: &[u8]) -> Option<usize> {
    let length = HEADER + usize::from(u16::from_be_bytes([*text.get(6)?, *text.get(7)?]));
    (text.len() >= length).then_some(length)
}

// Answers the frames of a client until it closes the connection.
fn serve(mut client: TcpStream) -> io::Result<()> {
    client.set_nodelay(true)?;
    let mut text = Vec::with_capacity(2048);
    let mut buffer = [0; 1024];
    loop {
        let count = client.read(&mut buffer)?;
        if count == 0 {
            return Ok(());
        }
        text.extend_from_slice(&buffer[..count]);
        while let Some(length) = whole(&text) {
            client.write_all(if text.get(HEADER) == Some(&0x60) { AARE } else { STATE })?;
            text.drain(..length);
        }
    }
}

fn main() -> io::Result<()> {
    let listener = TcpListener::bind("127.0.0.1:0")?;
    println!("{}", listener.local_addr()?.port());
    thread::spawn(move || {
        for client in listener.incoming().flatten() {
            thread::spawn(move || serve(client));
        }
    });
    io::stdin().read_to_end(&mut Vec::new())?;
    Ok(())
}
