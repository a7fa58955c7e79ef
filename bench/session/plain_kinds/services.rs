//! GET, SET and ACTION (IEC 62056-5-3): the requests of a client and their answers, and a long GET
//! in blocks. SET and ACTION in blocks, which no session of the benchmark uses, are left out.

use crate::association::{Link, ACTION, GET, GET_IN_BLOCKS, LISTS, SET};
use crate::data::{put_length, Bytes, Data};
use crate::meter::{Meter, Target};

pub const NOT_ALLOWED: [u8; 3] = [0xD8, 0x01, 0x01];
pub const UNREADABLE: [u8; 3] = [0xD8, 0x01, 0x03];
pub const UNKNOWN: [u8; 3] = [0xD8, 0x02, 0x02];

const MAX_NESTING: usize = 8;
// The initial capacity of an answer to a GET, that of the proved session.
const ROOM: usize = 64;
// The length of an answer with a block before the block's bytes.
const BLOCK_HEADER: u16 = 12;

// A long answer to a GET, and the number of the block that was sent last.
pub struct Transfer {
    bytes: Vec<u8>,
    block_size: usize,
    number: u32,
}

impl Transfer {
    // The next block, and whether it is the last.
    fn next(&mut self, id: u8) -> (Vec<u8>, bool) {
        let rest = &self.bytes[self.number as usize * self.block_size..];
        let block = &rest[..rest.len().min(self.block_size)];
        let is_last = block.len() == rest.len();
        self.number += 1;
        let mut answer = Vec::with_capacity(block.len() + usize::from(BLOCK_HEADER));
        answer.extend_from_slice(&[0xC4, 0x02, id, u8::from(is_last)]);
        answer.extend_from_slice(&self.number.to_be_bytes());
        answer.push(0);
        put_length(block.len(), &mut answer);
        answer.extend_from_slice(block);
        (answer, is_last)
    }
}

// The conformance bits that a form of a service needs.
fn needs(service: u8, form: u8) -> Option<u32> {
    match (service, form) {
        (0xC0, 1) => Some(GET),
        (0xC0, 2) => Some(GET | GET_IN_BLOCKS),
        (0xC0, 3) => Some(GET | LISTS),
        (0xC1, 1) => Some(SET),
        (0xC3, 1) => Some(ACTION),
        _ => None,
    }
}

// The association of a client that sends a request, the meter, and the transfer in progress.
pub struct Services<'a> {
    pub link: Link,
    pub meter: &'a mut Meter,
    pub transfer: &'a mut Option<Transfer>,
}

impl Services<'_> {
    // Answers a request. Any but a GET-next ends the transfer.
    pub fn answer(&mut self, payload: &[u8]) -> Vec<u8> {
        let before = self.transfer.take();
        let [service, form, body @ ..] = payload else {
            return UNREADABLE.to_vec();
        };
        match needs(*service, *form) {
            Some(bits) if self.link.conformance & bits == bits => {}
            _ => return UNKNOWN.to_vec(),
        }
        let mut body = Bytes(body);
        let answer = match (service, form) {
            (0xC0, 1) => self.get(&mut body),
            (0xC0, 2) => self.get_next(&mut body, before),
            (0xC0, _) => self.get_list(&mut body),
            (0xC1, _) => self.set(&mut body),
            _ => self.execute(&mut body),
        };
        answer.unwrap_or_else(|| UNREADABLE.to_vec())
    }

    fn get(&mut self, body: &mut Bytes) -> Option<Vec<u8>> {
        let id = body.byte()?;
        let target = target(body)?;
        let is_selected = selection(body)?;
        end(body)?;
        let mut answer = get_response(0x01, id);
        self.read(&target, is_selected, &mut answer);
        Some(self.fit(id, answer, 4))
    }

    fn get_list(&mut self, body: &mut Bytes) -> Option<Vec<u8>> {
        let id = body.byte()?;
        let count = body.length()?;
        let mut targets = Vec::new();
        for _ in 0..count {
            targets.push((target(body)?, selection(body)?));
        }
        end(body)?;
        let mut answer = get_response(0x03, id);
        put_length(count, &mut answer);
        for (target, is_selected) in &targets {
            self.read(target, *is_selected, &mut answer);
        }
        Some(self.fit(id, answer, 3))
    }

    // Writes the value of an attribute, or the result that refuses it.
    fn read(&self, target: &Target, is_selected: bool, answer: &mut Vec<u8>) {
        match self.meter.get(self.link.level, target, is_selected) {
            Ok(value) => {
                answer.push(0);
                value.write(answer);
            }
            Err(code) => answer.extend_from_slice(&[1, code]),
        }
    }

    // An answer that fits in the client's PDU; else its first block, of the bytes after the header.
    fn fit(&mut self, id: u8, answer: Vec<u8>, header: usize) -> Vec<u8> {
        let max_pdu = self.link.max_pdu;
        if answer.len() <= usize::from(max_pdu) {
            return answer;
        }
        if self.link.conformance & GET_IN_BLOCKS == 0 {
            return vec![0xC4, 0x01, id, 1, 250];
        }
        let bytes = answer[header..].to_vec();
        let block_size = usize::from(max_pdu - BLOCK_HEADER);
        self.send(id, Transfer { bytes, block_size, number: 0 })
    }

    // Sends the next block of a transfer, which ends after its last.
    fn send(&mut self, id: u8, mut transfer: Transfer) -> Vec<u8> {
        let (answer, is_last) = transfer.next(id);
        if !is_last {
            *self.transfer = Some(transfer);
        }
        answer
    }

    fn get_next(&mut self, body: &mut Bytes, before: Option<Transfer>) -> Option<Vec<u8>> {
        let id = body.byte()?;
        let number = u32::from_be_bytes(body.array()?);
        end(body)?;
        let code = match before {
            Some(transfer) if transfer.number == number => return Some(self.send(id, transfer)),
            Some(_) => 19,
            None => 16,
        };
        let mut answer = vec![0xC4, 0x02, id, 1];
        answer.extend_from_slice(&number.to_be_bytes());
        answer.extend_from_slice(&[1, code]);
        Some(answer)
    }

    fn set(&mut self, body: &mut Bytes) -> Option<Vec<u8>> {
        let id = body.byte()?;
        let target = target(body)?;
        let is_selected = selection(body)?;
        let value = body.data(MAX_NESTING)?;
        end(body)?;
        let code = self.meter.set(self.link.level, &target, is_selected, &value);
        Some(vec![0xC5, 0x01, id, code])
    }

    fn execute(&mut self, body: &mut Bytes) -> Option<Vec<u8>> {
        let id = body.byte()?;
        let target = target(body)?;
        let parameter = parameter(body)?;
        end(body)?;
        let code = self.meter.execute(self.link.level, &target, parameter.as_ref());
        Some(vec![0xC7, 0x01, id, code, 0])
    }
}

// The beginning of a Get-Response of this form.
fn get_response(form: u8, id: u8) -> Vec<u8> {
    let mut answer = Vec::with_capacity(ROOM);
    answer.extend_from_slice(&[0xC4, form, id]);
    answer
}

// The attribute or method that a request names.
fn target(body: &mut Bytes) -> Option<Target> {
    Some(Target { class: body.word()?, name: body.array()?, number: body.byte()? })
}

// Whether a part of the attribute is asked for.
fn selection(body: &mut Bytes) -> Option<bool> {
    let is_selected = body.byte()? != 0;
    if is_selected {
        body.byte()?;
        body.data(MAX_NESTING)?;
    }
    Some(is_selected)
}

// The parameter of a method, if there is one.
fn parameter(body: &mut Bytes) -> Option<Option<Data>> {
    Some(if body.byte()? != 0 { Some(body.data(MAX_NESTING)?) } else { None })
}

// Nothing may follow a request.
fn end(body: &Bytes) -> Option<()> {
    body.0.is_empty().then_some(())
}
