//! The work of `head_end run` in plain Rust, written without proofs in mind: reads the jobs on
//! standard input, runs them with a number of threads (its argument), each job on its own
//! connection with the same bytes and time limits, and prints the same report.
use std::io::{self, Read, Write};
use std::net::{TcpStream, ToSocketAddrs};
use std::sync::Mutex;
use std::sync::atomic::{AtomicUsize, Ordering};
use std::thread;
use std::time::{Duration, Instant};

const HEADER: usize = 8;
const MAX_PAYLOAD: usize = 1_024;
const CONNECT_WITHIN: Duration = Duration::from_secs(10);
const ANSWER_WITHIN: Duration = Duration::from_secs(60);
const MOST_READS: u32 = 65_536;
const RELEASE: &[u8] = b"\x62\x03\x80\x01\x00";

#[derive(Clone, Copy, PartialEq)]
enum Verb {
    Disconnect,
    Reconnect,
    ReadState,
}

struct Job {
    id: String,
    address: String,
    verb: Verb,
}

#[derive(Clone, Copy)]
enum Outcome {
    Done(u8),
    Refused(u8),
    Rejected(u8),
    Unknown,
}

// Returns a payload in a frame from port 1 to port 1.
fn framed(payload: &[u8]) -> Vec<u8> {
    let mut text = vec![0, 1, 0, 1, 0, 1];
    text.extend_from_slice(&(payload.len() as u16).to_be_bytes());
    text.extend_from_slice(payload);
    text
}

// Returns the frame of an AARQ with the password.
fn aarq(password: &[u8]) -> Vec<u8> {
    let mut fields = b"\xA1\x09\x06\x07\x60\x85\x74\x05\x08\x01\x01\x8A\x02\x07\x80\x8B\x07\x60\x85\x74\x05\x08\x02\x01\xAC".to_vec();
    fields.extend_from_slice(&[password.len() as u8 + 2, 0x80, password.len() as u8]);
    fields.extend_from_slice(password);
    fields.extend_from_slice(b"\xBE\x10\x04\x0E\x01\x00\x00\x00\x06\x5F\x1F\x04\x00\x00\x1C\x19\x04\x00");
    let mut payload = vec![0x60, fields.len() as u8];
    payload.extend_from_slice(&fields);
    framed(&payload)
}

// Returns the frame of a request.
fn request(verb: Verb) -> Vec<u8> {
    framed(match verb {
        Verb::Disconnect => b"\xC3\x01\xC1\x00\x46\x00\x00\x60\x03\x0A\xFF\x01\x01\x0F\x00",
        Verb::Reconnect => b"\xC3\x01\xC1\x00\x46\x00\x00\x60\x03\x0A\xFF\x02\x01\x0F\x00",
        Verb::ReadState => b"\xC0\x01\xC1\x00\x46\x00\x00\x60\x03\x0A\xFF\x03\x00",
    })
}

// A reader of bytes from the front.
struct Bytes<'a>(&'a [u8]);

impl<'a> Bytes<'a> {
    // Takes the next `count` bytes.
    fn take(&mut self, count: usize) -> Option<&'a [u8]> {
        if self.0.len() < count {
            return None;
        }
        let (now, later) = self.0.split_at(count);
        self.0 = later;
        Some(now)
    }

    // The contents of the next BER field, if it has this tag.
    fn field(&mut self, tag: u8) -> Option<Bytes<'a>> {
        let head = self.take(2)?;
        (head[0] == tag && head[1] < 0x80).then_some(())?;
        self.take(usize::from(head[1])).map(Bytes)
    }
}

// The result, the diagnostic and the services of an AARE.
fn aare(payload: &[u8]) -> Option<(u8, u8, u32)> {
    let mut fields = Bytes(payload).field(0x61)?;
    fields.field(0xA1)?;
    let result = fields.field(0xA2)?.field(0x02)?.take(1)?[0];
    let diagnostic = fields.field(0xA3)?.field(0xA1)?.field(0x02)?.take(1)?[0];
    let Some(mut user) = fields.field(0xBE) else {
        return Some((result, diagnostic, 0));
    };
    let mut initiate = user.field(0x04)?;
    if initiate.take(3)? != [0x08, 0x00, 0x06] || initiate.take(4)? != [0x5F, 0x1F, 0x04, 0x00] {
        return None;
    }
    let bits = initiate.take(3)?;
    Some((result, diagnostic, u32::from_be_bytes([0, bits[0], bits[1], bits[2]])))
}

// Returns the outcome that a response means.
fn reply(verb: Verb, payload: &[u8]) -> Outcome {
    match (verb, payload) {
        (Verb::ReadState, [0xC4, 0x01, 0xC1, 0x01, code]) if *code != 0 => Outcome::Refused(*code),
        (Verb::ReadState, [0xC4, 0x01, 0xC1, 0x00, 0x16, state]) if *state <= 2 => Outcome::Done(*state),
        (Verb::ReadState, _) => Outcome::Unknown,
        (_, [0xC7, 0x01, 0xC1, 0, ..]) => Outcome::Done(0),
        (_, [0xC7, 0x01, 0xC1, code, ..]) => Outcome::Refused(*code),
        _ => Outcome::Unknown,
    }
}

// A connection with a time limit, and its frames.
struct Meter {
    stream: TcpStream,
    opened: Instant,
    text: Vec<u8>,
    reads: u32,
}

impl Meter {
    // Connects to the first address that accepts.
    fn connect(address: &str) -> Option<Meter> {
        for place in address.to_socket_addrs().ok()? {
            if let Ok(stream) = TcpStream::connect_timeout(&place, CONNECT_WITHIN) {
                return Some(Meter { stream, opened: Instant::now(), text: Vec::new(), reads: 0 });
            }
        }
        None
    }

    // Returns the time that is left, if there is some.
    fn left(&self) -> Option<Duration> {
        ANSWER_WITHIN.checked_sub(self.opened.elapsed()).filter(|left| !left.is_zero())
    }

    // Sends bytes within the time that is left.
    fn send(&mut self, text: &[u8]) -> Option<()> {
        self.stream.set_write_timeout(Some(self.left()?)).ok()?;
        self.stream.write_all(text).ok()
    }

    // Receives more bytes within the time that is left.
    fn more(&mut self) -> Option<()> {
        let mut buffer = [0; 1024];
        self.reads += 1;
        if self.reads > MOST_READS {
            return None;
        }
        self.stream.set_read_timeout(Some(self.left()?)).ok()?;
        let count = self.stream.read(&mut buffer).ok().filter(|count| *count > 0)?;
        self.text.extend_from_slice(&buffer[..count]);
        Some(())
    }

    // The payload of the next frame from port 1 to port 1.
    fn take(&mut self) -> Option<Vec<u8>> {
        loop {
            if self.text.len() < HEADER {
                self.more()?;
                continue;
            }
            let word = |at: usize| u16::from_be_bytes([self.text[at], self.text[at + 1]]);
            let length = usize::from(word(6));
            if word(0) != 1 || length > MAX_PAYLOAD {
                return None;
            }
            if self.text.len() < HEADER + length {
                self.more()?;
                continue;
            }
            let is_ours = word(2) == 1 && word(4) == 1;
            let frame: Vec<u8> = self.text.drain(..HEADER + length).collect();
            if is_ours {
                return Some(frame[HEADER..].to_vec());
            }
        }
    }
}

// Runs a job. `None`: its outcome is unknown.
fn converse(job: &Job, password: &[u8]) -> Option<Outcome> {
    let mut meter = Meter::connect(&job.address)?;
    meter.send(&aarq(password))?;
    let (result, diagnostic, services) = aare(&meter.take()?)?;
    if result != 0 {
        return Some(Outcome::Rejected(diagnostic));
    }
    if services & (if job.verb == Verb::ReadState { 0x10 } else { 0x01 }) == 0 {
        return Some(Outcome::Rejected(0));
    }
    meter.send(&request(job.verb))?;
    let outcome = reply(job.verb, &meter.take()?);
    if !matches!(outcome, Outcome::Unknown) {
        meter.send(&framed(RELEASE))?;
    }
    Some(outcome)
}

// Reads a line of the list: a name, an address and a verb.
fn job(line: &str) -> Option<Job> {
    let mut words = line.split(' ');
    let (id, address) = (words.next()?.to_string(), words.next()?.to_string());
    let verb = match words.next()? {
        "disconnect" => Verb::Disconnect,
        "reconnect" => Verb::Reconnect,
        "state" => Verb::ReadState,
        _ => return None,
    };
    words.next().is_none().then_some(Job { id, address, verb })
}

fn main() {
    let workers: usize = std::env::args().nth(1).and_then(|word| word.parse().ok()).expect("the number of workers");
    let password = std::env::var("METER_PASSWORD").expect("METER_PASSWORD");
    let mut text = String::new();
    io::stdin().read_to_string(&mut text).expect("standard input");
    let jobs: Vec<Job> = text.lines().filter(|line| !line.is_empty()).map(|line| job(line).expect("a job")).collect();
    let outcomes: Vec<Mutex<Outcome>> = jobs.iter().map(|_| Mutex::new(Outcome::Unknown)).collect();
    let next = AtomicUsize::new(0);
    thread::scope(|scope| {
        for _ in 0..workers {
            scope.spawn(|| {
                loop {
                    let place = next.fetch_add(1, Ordering::Relaxed);
                    let Some(job) = jobs.get(place) else { return };
                    *outcomes[place].lock().expect("no poison") = converse(job, password.as_bytes()).unwrap_or(Outcome::Unknown);
                }
            });
        }
    });
    let mut report = String::new();
    for (job, outcome) in jobs.iter().zip(outcomes) {
        report.push_str(&match outcome.into_inner().expect("no poison") {
            Outcome::Done(number) => format!("{} done {number}\n", job.id),
            Outcome::Refused(number) => format!("{} refused {number}\n", job.id),
            Outcome::Rejected(number) => format!("{} rejected {number}\n", job.id),
            Outcome::Unknown => format!("{} unknown\n", job.id),
        });
    }
    io::stdout().write_all(report.as_bytes()).expect("standard output");
}
