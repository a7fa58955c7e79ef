//! A session: the frames of a client (IEC 62056-4-7) and their answers.

use crate::association::{is_release, open, Link};
use crate::meter::Meter;
use crate::services::{Services, Transfer, NOT_ALLOWED, UNKNOWN, UNREADABLE};
use std::io::{self, Read, Write};

const HEADER: usize = 8;
const MAX_PAYLOAD: usize = 1_024;

#[derive(Debug, PartialEq)]
pub enum End {
    Closed,
    Cut,
    BadVersion,
    TooLong,
}

// The frames of a client, and what a session keeps from one frame to the next.
struct Session {
    pending: Vec<u8>,
    state: State,
}

struct State {
    password: Vec<u8>,
    link: Option<Link>,
    transfer: Option<Transfer>,
}

impl Session {
    fn new(password: &[u8]) -> Session {
        let state = State { password: password.to_vec(), link: None, transfer: None };
        Session { pending: Vec::new(), state }
    }

    // Takes the received bytes, and writes the answers to the whole frames.
    fn feed(
        &mut self,
        bytes: &[u8],
        meter: &mut Meter,
        writer: &mut impl Write,
    ) -> io::Result<Option<End>> {
        self.pending.extend_from_slice(bytes);
        let mut taken = 0;
        let end = loop {
            let rest = &self.pending[taken..];
            if rest.len() >= 2 && rest[..2] != [0, 1] {
                break Some(End::BadVersion);
            }
            if rest.len() < HEADER {
                break None;
            }
            let size = usize::from(u16::from_be_bytes([rest[6], rest[7]]));
            if size > MAX_PAYLOAD {
                break Some(End::TooLong);
            }
            if rest.len() < HEADER + size {
                break None;
            }
            self.state.hear(&rest[..HEADER + size], meter, writer)?;
            taken += HEADER + size;
        };
        self.pending.drain(..taken);
        Ok(end)
    }
}

impl State {
    // Answers a whole frame, if it is for the meter's port.
    fn hear(&mut self, frame: &[u8], meter: &mut Meter, writer: &mut impl Write) -> io::Result<()> {
        let source = u16::from_be_bytes([frame[2], frame[3]]);
        if frame[4..6] != [0, 1] {
            return Ok(());
        }
        let answer = self.answer(source, &frame[HEADER..], meter);
        writer.write_all(&framed(source, &answer))
    }

    fn answer(&mut self, source: u16, payload: &[u8], meter: &mut Meter) -> Vec<u8> {
        match (payload.first(), self.link) {
            (Some(0x60), _) => {
                let (link, answer) = open(&self.password, source, payload);
                self.link = link;
                self.transfer = None;
                answer
            }
            (Some(0x62), Some(link)) if link.port == source => {
                self.transfer = None;
                if !is_release(payload) {
                    return UNREADABLE.to_vec();
                }
                self.link = None;
                vec![0x63, 0x03, 0x80, 0x01, 0x00]
            }
            (Some(0xC0 | 0xC1 | 0xC3), Some(link)) if link.port == source => {
                Services { link, meter, transfer: &mut self.transfer }.answer(payload)
            }
            (Some(0xC0 | 0xC1 | 0xC3 | 0x62), _) => NOT_ALLOWED.to_vec(),
            _ => UNKNOWN.to_vec(),
        }
    }
}

fn framed(to: u16, payload: &[u8]) -> Vec<u8> {
    let mut frame = Vec::with_capacity(HEADER + payload.len());
    frame.extend_from_slice(&[0, 1, 0, 1]);
    frame.extend_from_slice(&to.to_be_bytes());
    frame.extend_from_slice(&(payload.len() as u16).to_be_bytes());
    frame.extend_from_slice(payload);
    frame
}

// Serves a client up to the end of its bytes.
pub fn serve(
    reader: &mut impl Read,
    writer: &mut impl Write,
    meter: &mut Meter,
    password: &[u8],
) -> io::Result<End> {
    let mut session = Session::new(password);
    let mut buffer = [0; 1_024];
    loop {
        let count = reader.read(&mut buffer)?;
        if count == 0 {
            return Ok(if session.pending.is_empty() { End::Closed } else { End::Cut });
        }
        if let Some(end) = session.feed(&buffer[..count], meter, writer)? {
            return Ok(end);
        }
    }
}
