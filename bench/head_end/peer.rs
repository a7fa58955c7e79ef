//! A scripted meter for many clients at once: prints its port, then answers each AARQ with an AARE
//! that opens the association, each ACTION with the result 0, and nothing else. With an argument it
//! waits that number of milliseconds before it answers an ACTION. It ends with its standard input.
use std::io::{self, Read, Write};
use std::net::{TcpListener, TcpStream};
use std::sync::Arc;
use std::thread;
use std::time::Duration;

const AARE: &[u8] = b"\x00\x01\x00\x01\x00\x01\x00\x2B\x61\x29\xA1\x09\x06\x07\x60\x85\x74\x05\x08\x01\x01\xA2\x03\x02\x01\x00\
\xA3\x05\xA1\x03\x02\x01\x00\xBE\x10\x04\x0E\x08\x00\x06\x5F\x1F\x04\x00\x00\x1C\x19\x04\x00\x00\x07";
const DONE: &[u8] = b"\x00\x01\x00\x01\x00\x01\x00\x05\xC7\x01\xC1\x00\x00";
const HEADER: usize = 8;
const CLIENTS: usize = 32;

// The length of the first complete frame of a text.
fn whole(text: &[u8]) -> Option<usize> {
    let length = HEADER + usize::from(u16::from_be_bytes([*text.get(6)?, *text.get(7)?]));
    (text.len() >= length).then_some(length)
}

// Answers the frames of a client until it closes the connection, an ACTION after a pause.
fn answer(mut client: TcpStream, pause: Duration) -> io::Result<()> {
    client.set_nodelay(true)?;
    let mut text = Vec::with_capacity(256);
    let mut buffer = [0; 1024];
    loop {
        let count = client.read(&mut buffer)?;
        if count == 0 {
            return Ok(());
        }
        text.extend_from_slice(&buffer[..count]);
        while let Some(length) = whole(&text) {
            match text.get(HEADER) {
                Some(0x60) => client.write_all(AARE)?,
                Some(0xC3) => {
                    thread::sleep(pause);
                    client.write_all(DONE)?
                }
                _ => {}
            }
            text.drain(..length);
        }
    }
}

fn main() -> io::Result<()> {
    let pause = std::env::args().nth(1).and_then(|it| it.parse().ok()).unwrap_or(0);
    let pause = Duration::from_millis(pause);
    // (on all addresses: each of 127.0.0.0/8 is then a meter of its own)
    let listener = Arc::new(TcpListener::bind("0.0.0.0:0")?);
    println!("{}", listener.local_addr()?.port());
    for _ in 0..CLIENTS {
        let listener = Arc::clone(&listener);
        thread::spawn(move || {
            for client in listener.incoming().flatten() {
                let _ = answer(client, pause);
            }
        });
    }
    io::stdin().read_to_end(&mut Vec::new())?;
    Ok(())
}
