// A plain program that does what `meter_server apdu` does, written without proofs in mind, to
// compare the speed of the proved program with.
use std::io::{Read, Write};

struct Core {
    device: Vec<u8>,
    state: u8,
    mode: u8,
}

const DEVICE_NAME: [u8; 6] = [0, 0, 42, 0, 0, 255];
const DISCONNECT_CONTROL: [u8; 6] = [0, 0, 96, 3, 10, 255];

impl Core {
    // The class of a logical name, if the meter has it.
    fn class_of(name: &[u8]) -> Option<u16> {
        if name == DEVICE_NAME {
            Some(1)
        } else if name == DISCONNECT_CONTROL {
            Some(70)
        } else {
            None
        }
    }

    // The result code of a refused access: 4 for an unknown object, 9 for another class, 3 for no
    // such attribute or method, 13 for selective access. `None` if the access is allowed.
    fn refusal(class: u16, name: &[u8], there: bool, selected: bool) -> Option<u8> {
        match Core::class_of(name) {
            None => Some(4),
            Some(own) if own != class => Some(9),
            Some(_) if !there => Some(3),
            Some(_) if selected => Some(13),
            Some(_) => None,
        }
    }

    // Appends the result of a GET: a value, or 1 and a result code.
    fn get(&self, class: u16, name: &[u8], number: u8, selected: bool, answer: &mut Vec<u8>) {
        let there = (1..=if class == 70 { 4 } else { 2 }).contains(&number);
        if let Some(code) = Core::refusal(class, name, there, selected) {
            answer.extend_from_slice(&[1, code]);
            return;
        }
        answer.push(0);
        match (class, number) {
            (_, 1) => {
                answer.extend_from_slice(&[9, 6]);
                answer.extend_from_slice(name);
            }
            (1, _) => {
                answer.extend_from_slice(&[9, self.device.len() as u8]);
                answer.extend_from_slice(&self.device);
            }
            (_, 2) => answer.extend_from_slice(&[3, (self.state == 1) as u8]),
            (_, 3) => answer.extend_from_slice(&[0x16, self.state]),
            _ => answer.extend_from_slice(&[0x16, self.mode]),
        }
    }

    // Writes an attribute; returns the result code.
    fn set(&mut self, class: u16, name: &[u8], number: u8, selected: bool, value: &[u8]) -> u8 {
        if let Some(code) = Core::refusal(class, name, class == 70 && number == 4, selected) {
            return code;
        }
        match value {
            [0x16, mode] if *mode > 6 => 250,
            [0x16, 0] if self.state != 1 => 2,
            [0x16, mode] => {
                self.mode = *mode;
                0
            }
            _ => 12,
        }
    }

    // Executes a method; returns the result code.
    fn execute(&mut self, class: u16, name: &[u8], number: u8) -> u8 {
        let there = class == 70 && (number == 1 || number == 2);
        if let Some(code) = Core::refusal(class, name, there, false) {
            return code;
        }
        match (number, self.mode, self.state) {
            (1, _, 0) => 0,
            (1, 0, _) => 2,
            (1, _, _) => {
                self.state = 0;
                0
            }
            (_, _, 1) => 0,
            (_, 2 | 4, 0) => {
                self.state = 1;
                0
            }
            (_, 1 | 3 | 5 | 6, 0) => {
                self.state = 2;
                0
            }
            (_, 1 | 3 | 5 | 6, 2) => 0,
            _ => 2,
        }
    }

    // The bytes of a Data with one of the tags that these requests have.
    fn data(bytes: &[u8]) -> Option<&[u8]> {
        match bytes {
            [0, ..] => Some(&bytes[..1]),
            [3 | 0x0F | 0x11 | 0x16, _, ..] => Some(&bytes[..2]),
            [9, len, ..] if *len < 128 && bytes.len() >= 2 + *len as usize => Some(&bytes[..2 + *len as usize]),
            _ => None,
        }
    }

    // Appends the response to a request. `None`: it is no request that this program knows.
    fn request(&mut self, payload: &[u8], answer: &mut Vec<u8>) -> Option<()> {
        let id = *payload.get(2)?;
        let class = u16::from_be_bytes([*payload.get(3)?, *payload.get(4)?]);
        let name = payload.get(5..11)?.to_vec();
        let number = *payload.get(11)?;
        let mut rest = payload.get(12..)?;
        let has_more = *rest.first()? != 0;
        rest = &rest[1..];
        let mut selected = false;
        if payload[0] != 0xC3 && has_more {
            rest = rest.get(1..)?;
            rest = &rest[Core::data(rest)?.len()..];
            selected = true;
        }
        match payload[0] {
            0xC0 if rest.is_empty() => {
                answer.extend_from_slice(&[0xC4, 1, id]);
                self.get(class, &name, number, selected, answer);
            }
            0xC1 if Core::data(rest)?.len() == rest.len() => {
                let code = self.set(class, &name, number, selected, rest);
                answer.extend_from_slice(&[0xC5, 1, id, code]);
            }
            0xC3 if (!has_more && rest.is_empty()) || (has_more && Core::data(rest)?.len() == rest.len()) => {
                let code = self.execute(class, &name, number);
                answer.extend_from_slice(&[0xC7, 1, id, code, 0]);
            }
            _ => return None,
        }
        Some(())
    }

    // Returns the response to a payload, or an ExceptionResponse.
    fn answer(&mut self, payload: &[u8]) -> Vec<u8> {
        match payload {
            [0xC0 | 0xC1 | 0xC3] => vec![0xD8, 1, 3],
            [0xC0 | 0xC1 | 0xC3, 1, ..] => {
                let mut answer = Vec::new();
                match self.request(payload, &mut answer) {
                    Some(()) => answer,
                    None => vec![0xD8, 1, 3],
                }
            }
            _ => vec![0xD8, 2, 2],
        }
    }
}

const DIGITS: &[u8; 16] = b"0123456789ABCDEF";

// The value of a hexadecimal digit.
fn digit(c: u8) -> Option<u8> {
    (c as char).to_digit(16).map(|d| d as u8)
}

fn main() {
    let mut text = Vec::new();
    std::io::stdin().read_to_end(&mut text).unwrap();
    let mut requests = Vec::new();
    for line in text.split(|c| *c == b'\n').filter(|line| !line.is_empty()) {
        let bytes: Option<Vec<u8>> = line
            .chunks(2)
            .map(|pair| Some(digit(pair[0])? << 4 | digit(*pair.get(1)?)?))
            .collect();
        match bytes {
            Some(bytes) => requests.push(bytes),
            None => {
                eprintln!("fault: input");
                std::process::exit(2);
            }
        }
    }
    let mut core = Core { device: b"RELAY1".to_vec(), state: 1, mode: 0 };
    let mut out = String::new();
    for request in requests {
        for byte in core.answer(&request) {
            out.push(DIGITS[(byte >> 4) as usize] as char);
            out.push(DIGITS[(byte & 15) as usize] as char);
        }
        out.push('\n');
    }
    std::io::stdout().write_all(out.as_bytes()).unwrap();
}
