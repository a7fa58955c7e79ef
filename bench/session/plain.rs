//! The work of `meter_server_bench` in plain Rust, written without proofs in mind: a session of a
//! public client that associates and then reads the state of the switch a number of times. It
//! splits the stream into frames, reads the AARQ and the GETs, and frames the responses.
use std::hint::black_box;
use std::io::{self, Read, Write};
use std::time::Instant;

const OWN_CONFORMANCE: [u32; 2] = [0x001E19, 0x001C19];
const MAX_PAYLOAD: usize = 1_024;
const HEADER: usize = 8;

const APPLICATION_CONTEXT: &[u8] = b"\x06\x07\x60\x85\x74\x05\x08\x01\x01";
const LOW_LEVEL: &[u8] = b"\x60\x85\x74\x05\x08\x02\x01";

#[derive(Clone, Copy, PartialEq)]
enum Level {
    Public,
    Management,
}

#[derive(Debug, PartialEq)]
enum End {
    Closed,
    Cut,
    BadVersion,
    TooLong,
}

#[derive(Debug, Clone)]
enum Data {
    Null,
    Boolean(bool),
    OctetString(Vec<u8>),
    Enum(u8),
    LongUnsigned(u16),
    Structure(Vec<Data>),
}

impl Data {
    // Appends the encoding.
    fn write(&self, out: &mut Vec<u8>) {
        match self {
            Data::Null => out.push(0x00),
            Data::Boolean(value) => out.extend_from_slice(&[0x03, u8::from(*value)]),
            Data::OctetString(bytes) => {
                out.extend_from_slice(&[0x09, bytes.len() as u8]);
                out.extend_from_slice(bytes);
            }
            Data::Enum(value) => out.extend_from_slice(&[0x16, *value]),
            Data::LongUnsigned(value) => {
                out.push(0x12);
                out.extend_from_slice(&value.to_be_bytes());
            }
            Data::Structure(items) => {
                out.extend_from_slice(&[0x02, items.len() as u8]);
                items.iter().for_each(|item| item.write(out));
            }
        }
    }
}

// A reader of bytes from the front.
struct Bytes<'a>(&'a [u8]);

impl<'a> Bytes<'a> {
    // Takes the next `count` bytes.
    fn take(&mut self, count: usize) -> Option<&'a [u8]> {
        if self.0.len() < count {
            return None;
        }
        let (now, later) = self.0.split_at(count);
        self.0 = later;
        Some(now)
    }

    // Takes the next byte.
    fn byte(&mut self) -> Option<u8> {
        Some(self.take(1)?[0])
    }

    // Takes the next number of 16 bits.
    fn word(&mut self) -> Option<u16> {
        Some(u16::from_be_bytes(self.take(2)?.try_into().ok()?))
    }

    // The next BER field, if it has this tag.
    fn field(&mut self, tag: u8) -> Option<&'a [u8]> {
        if self.0.first() != Some(&tag) {
            return None;
        }
        self.byte()?;
        let count = self.byte()?;
        if count >= 0x80 {
            return None;
        }
        self.take(usize::from(count))
    }

    // Reads a value, with at most `levels` levels of nesting.
    fn data(&mut self, levels: u8) -> Option<Data> {
        Some(match self.byte()? {
            0x00 => Data::Null,
            0x02 => {
                let levels = levels.checked_sub(1)?;
                let count = self.byte()?;
                let mut items = Vec::new();
                for _ in 0..count {
                    items.push(self.data(levels)?);
                }
                Data::Structure(items)
            }
            0x03 => Data::Boolean(self.byte()? != 0),
            0x09 => {
                let count = self.byte()?;
                Data::OctetString(self.take(usize::from(count))?.to_vec())
            }
            0x12 => Data::LongUnsigned(self.word()?),
            0x16 => Data::Enum(self.byte()?),
            _ => return None,
        })
    }
}

struct Initiate {
    version: u8,
    conformance: u32,
    max_pdu: u16,
}

// Reads the InitiateRequest of an AARQ.
fn initiate(bytes: &[u8]) -> Option<Initiate> {
    let mut bytes = Bytes(bytes);
    if bytes.take(4)? != [0x01, 0x00, 0x00, 0x00] {
        return None;
    }
    let version = bytes.byte()?;
    if bytes.take(4)? != [0x5F, 0x1F, 0x04, 0x00] {
        return None;
    }
    let bits = bytes.take(3)?;
    let conformance = u32::from_be_bytes([0, bits[0], bits[1], bits[2]]);
    let max_pdu = bytes.word()?;
    bytes.0.is_empty().then_some(Initiate { version, conformance, max_pdu })
}

struct Aarq<'a> {
    context: &'a [u8],
    mechanism: Option<&'a [u8]>,
    secret: Option<&'a [u8]>,
    initiate: Initiate,
}

// Reads an AARQ.
fn aarq(payload: &[u8]) -> Option<Aarq<'_>> {
    let mut whole = Bytes(payload);
    let mut fields = Bytes(whole.field(0x60)?);
    let context = fields.field(0xA1)?;
    let requirements = fields.field(0x8A);
    let mechanism = fields.field(0x8B);
    let secret = match fields.field(0xAC) {
        Some(value) => Some(Bytes(value).field(0x80)?),
        None => None,
    };
    let information = Bytes(fields.field(0xBE)?).field(0x04)?;
    if !fields.0.is_empty() || !whole.0.is_empty() || requirements.is_some() != mechanism.is_some() {
        return None;
    }
    Some(Aarq { context, mechanism, secret, initiate: initiate(information)? })
}

#[derive(Clone, Copy)]
struct Link {
    port: u16,
    level: Level,
    conformance: u32,
    max_pdu: u16,
}

struct Refusal {
    diagnostic: u8,
    user_error: Option<u8>,
}

struct Object {
    class: u16,
    name: [u8; 6],
}

const OBJECTS: [Object; 12] = [
    Object { class: 15, name: [0, 0, 40, 0, 0, 255] },
    Object { class: 1, name: [0, 0, 42, 0, 0, 255] },
    Object { class: 3, name: [1, 0, 1, 7, 0, 255] },
    Object { class: 3, name: [1, 0, 2, 7, 0, 255] },
    Object { class: 9, name: [0, 0, 10, 0, 106, 255] },
    Object { class: 22, name: [0, 0, 15, 0, 1, 255] },
    Object { class: 22, name: [0, 1, 15, 0, 1, 255] },
    Object { class: 22, name: [0, 2, 15, 0, 1, 255] },
    Object { class: 22, name: [0, 3, 15, 0, 1, 255] },
    Object { class: 70, name: [0, 0, 96, 3, 10, 255] },
    Object { class: 71, name: [0, 0, 17, 0, 0, 255] },
    Object { class: 71, name: [0, 1, 17, 0, 0, 255] },
];

// An attribute of a class, and whether the public client may read it. The management client may
// read all.
struct Attribute {
    class: u16,
    number: u8,
    public: bool,
}

const fn attribute(class: u16, number: u8, public: bool) -> Attribute {
    Attribute { class, number, public }
}

const ATTRIBUTES: [Attribute; 28] = [
    attribute(15, 1, true),
    attribute(15, 2, true),
    attribute(1, 1, true),
    attribute(1, 2, true),
    attribute(3, 1, true),
    attribute(3, 2, true),
    attribute(3, 3, true),
    attribute(9, 1, true),
    attribute(9, 2, false),
    attribute(22, 1, true),
    attribute(22, 2, false),
    attribute(22, 3, false),
    attribute(22, 4, false),
    attribute(70, 1, true),
    attribute(70, 2, true),
    attribute(70, 3, true),
    attribute(70, 4, true),
    attribute(71, 1, true),
    attribute(71, 2, false),
    attribute(71, 3, false),
    attribute(71, 4, false),
    attribute(71, 5, false),
    attribute(71, 6, false),
    attribute(71, 7, false),
    attribute(71, 8, false),
    attribute(71, 9, false),
    attribute(71, 10, false),
    attribute(71, 11, false),
];

// Whether a client of a level may read an attribute.
fn may_read(level: Level, class: u16, number: u8) -> bool {
    let row = ATTRIBUTES.iter().find(|row| row.class == class && row.number == number);
    row.is_some_and(|row| row.public || level == Level::Management)
}

struct Get {
    class: u16,
    name: [u8; 6],
    number: u8,
    selected: bool,
}

struct Core {
    device: Vec<u8>,
    state: u8,
    mode: u8,
}

impl Core {
    // Returns the value of an attribute, or the result code of a refusal.
    fn get(&self, level: Level, get: &Get) -> Result<Data, u8> {
        let object = OBJECTS.iter().find(|object| object.name == get.name).ok_or(4)?;
        if object.class != get.class {
            return Err(9);
        }
        if !may_read(level, object.class, get.number) {
            return Err(3);
        }
        if get.selected {
            return Err(13);
        }
        Ok(match (get.class, get.number) {
            (_, 1) => Data::OctetString(get.name.to_vec()),
            (1, _) => Data::OctetString(self.device.clone()),
            (70, 2) => Data::Boolean(self.state == 1),
            (70, 3) => Data::Enum(self.state),
            (70, 4) => Data::Enum(self.mode),
            (9, _) => Data::Structure(Vec::new()),
            (22, _) => Data::LongUnsigned(0),
            _ => Data::Null,
        })
    }
}

struct Session {
    password: Vec<u8>,
    pending: Vec<u8>,
    link: Option<Link>,
}

impl Session {
    // Takes the received bytes, and writes the pending frames.
    fn feed(&mut self, bytes: &[u8], core: &mut Core, writer: &mut impl Write) -> io::Result<Option<End>> {
        self.pending.extend_from_slice(bytes);
        let mut taken = 0;
        let end = loop {
            let rest = &self.pending[taken..];
            if rest.len() >= 2 && rest[..2] != [0, 1] {
                break Some(End::BadVersion);
            }
            if rest.len() < HEADER {
                break None;
            }
            let size = usize::from(u16::from_be_bytes([rest[6], rest[7]]));
            if size > MAX_PAYLOAD {
                break Some(End::TooLong);
            }
            if rest.len() < HEADER + size {
                break None;
            }
            let source = u16::from_be_bytes([rest[2], rest[3]]);
            let destination = u16::from_be_bytes([rest[4], rest[5]]);
            let payload = &rest[HEADER..HEADER + size];
            if destination == 1 {
                let (link, answer) = hear(self.link, &self.password, core, source, payload);
                self.link = link;
                writer.write_all(&frame(source, &answer))?;
            }
            taken += HEADER + size;
        };
        self.pending.drain(..taken);
        Ok(end)
    }
}

// Returns a payload in a frame to a port.
fn frame(to: u16, payload: &[u8]) -> Vec<u8> {
    let mut frame = Vec::with_capacity(HEADER + payload.len());
    frame.extend_from_slice(&[0, 1, 0, 1]);
    frame.extend_from_slice(&to.to_be_bytes());
    frame.extend_from_slice(&(payload.len() as u16).to_be_bytes());
    frame.extend_from_slice(payload);
    frame
}

// Processes a frame; returns the association after it, and the response.
fn hear(link: Option<Link>, password: &[u8], core: &mut Core, source: u16, payload: &[u8]) -> (Option<Link>, Vec<u8>) {
    match (payload.first(), link) {
        (Some(0x60), _) => open(password, source, payload),
        (Some(0xC0 | 0xC1 | 0xC3 | 0x62), Some(open)) if open.port == source => match payload[0] {
            0x62 => (None, vec![0x63, 0x03, 0x80, 0x01, 0x00]),
            0xC0 => (link, read(open, core, payload)),
            _ => (link, vec![0xD8, 0x02, 0x02]),
        },
        (Some(0xC0 | 0xC1 | 0xC3 | 0x62), _) => (link, vec![0xD8, 0x01, 0x01]),
        _ => (link, vec![0xD8, 0x02, 0x02]),
    }
}

// Processes an AARQ; returns the association, if it is accepted, and the AARE.
fn open(password: &[u8], source: u16, payload: &[u8]) -> (Option<Link>, Vec<u8>) {
    match judge(password, source, payload) {
        Ok(link) => (Some(link), accepted(link)),
        Err(refusal) => (None, refused(&refusal)),
    }
}

// Judges an AARQ: the association, or the diagnostic of its refusal.
fn judge(password: &[u8], source: u16, payload: &[u8]) -> Result<Link, Refusal> {
    let refuse = |diagnostic, user_error| Refusal { diagnostic, user_error };
    let aarq = aarq(payload).ok_or(refuse(1, None))?;
    if aarq.context != APPLICATION_CONTEXT {
        return Err(refuse(2, None));
    }
    let level = match (source, aarq.mechanism, aarq.secret) {
        (16, None, _) => Level::Public,
        (1, Some(LOW_LEVEL), Some(secret)) if secret == password => Level::Management,
        (1, Some(LOW_LEVEL), _) => return Err(refuse(13, None)),
        _ => return Err(refuse(14, None)),
    };
    if aarq.initiate.version < 6 {
        return Err(refuse(1, Some(1)));
    }
    let conformance = aarq.initiate.conformance & OWN_CONFORMANCE[usize::from(level == Level::Management)];
    if conformance == 0 {
        return Err(refuse(1, Some(2)));
    }
    if (1..64).contains(&aarq.initiate.max_pdu) {
        return Err(refuse(1, Some(3)));
    }
    let max_pdu = if aarq.initiate.max_pdu == 0 { 1_024 } else { aarq.initiate.max_pdu.min(1_024) };
    Ok(Link { port: source, level, conformance, max_pdu })
}

// Returns the AARE that accepts an association.
fn accepted(link: Link) -> Vec<u8> {
    let mut answer = vec![0x61, 0x29, 0xA1, 0x09];
    answer.extend_from_slice(APPLICATION_CONTEXT);
    answer.extend_from_slice(&[0xA2, 3, 2, 1, 0, 0xA3, 5, 0xA1, 3, 2, 1, 0]);
    answer.extend_from_slice(&[0xBE, 0x10, 0x04, 0x0E, 0x08, 0x00, 0x06, 0x5F, 0x1F, 0x04, 0x00]);
    answer.extend_from_slice(&link.conformance.to_be_bytes()[1..]);
    answer.extend_from_slice(&[0x04, 0x00, 0x00, 0x07]);
    answer
}

// Returns the AARE that refuses an association.
fn refused(refusal: &Refusal) -> Vec<u8> {
    let mut answer = vec![0x61, if refusal.user_error.is_some() { 0x1F } else { 0x17 }, 0xA1, 0x09];
    answer.extend_from_slice(APPLICATION_CONTEXT);
    answer.extend_from_slice(&[0xA2, 3, 2, 1, 1, 0xA3, 5, 0xA1, 3, 2, 1, refusal.diagnostic]);
    if let Some(error) = refusal.user_error {
        answer.extend_from_slice(&[0xBE, 6, 4, 4, 0x0E, 1, 6, error]);
    }
    answer
}

// A GET-Request-Normal: its invoke-id and the attribute.
fn get(payload: &[u8]) -> Option<(u8, Get)> {
    let mut bytes = Bytes(payload);
    bytes.take(2)?;
    let id = bytes.byte()?;
    let class = bytes.word()?;
    let name = bytes.take(6)?.try_into().ok()?;
    let number = bytes.byte()?;
    let selected = bytes.byte()? != 0;
    if selected {
        bytes.byte()?;
        bytes.data(8)?;
    }
    bytes.0.is_empty().then_some((id, Get { class, name, number, selected }))
}

// Returns the response to a GET.
fn read(link: Link, core: &Core, payload: &[u8]) -> Vec<u8> {
    match payload.get(1) {
        None => return vec![0xD8, 0x01, 0x03],
        Some(1) if link.conformance & 0x000010 != 0 => {}
        Some(_) => return vec![0xD8, 0x02, 0x02],
    }
    let Some((id, get)) = get(payload) else {
        return vec![0xD8, 0x01, 0x03];
    };
    let mut answer = vec![0xC4, 0x01, id];
    match core.get(link.level, &get) {
        Ok(value) => {
            answer.push(0);
            value.write(&mut answer);
        }
        Err(code) => answer.extend_from_slice(&[1, code]),
    }
    if answer.len() > usize::from(link.max_pdu) {
        return vec![0xC4, 0x01, id, 1, 250];
    }
    answer
}

// Serves a session until the stream or the session ends.
fn serve(reader: &mut impl Read, writer: &mut impl Write, core: &mut Core, password: &[u8]) -> io::Result<End> {
    let mut session = Session { password: password.to_vec(), pending: Vec::new(), link: None };
    let mut buffer = [0; 1_024];
    loop {
        let count = reader.read(&mut buffer)?;
        if count == 0 {
            return Ok(if session.pending.is_empty() { End::Closed } else { End::Cut });
        }
        if let Some(end) = session.feed(&buffer[..count], core, writer)? {
            return Ok(end);
        }
    }
}

// A stream that returns at most a piece at each read.
struct Input<'a> {
    rest: &'a [u8],
    piece: usize,
}

impl Read for Input<'_> {
    fn read(&mut self, buffer: &mut [u8]) -> io::Result<usize> {
        let count = self.rest.len().min(buffer.len()).min(self.piece);
        let (now, later) = self.rest.split_at(count);
        buffer[..count].copy_from_slice(now);
        self.rest = later;
        Ok(count)
    }
}

const AARQ: &[u8] = b"\x00\x01\x00\x10\x00\x01\x00\x1F\x60\x1D\xA1\x09\x06\x07\x60\x85\x74\x05\x08\x01\x01\
    \xBE\x10\x04\x0E\x01\x00\x00\x00\x06\x5F\x1F\x04\x00\x00\x7E\x1F\x04\xB0";
const AARE: &[u8] = b"\x00\x01\x00\x01\x00\x10\x00\x2B\x61\x29\xA1\x09\x06\x07\x60\x85\x74\x05\x08\x01\x01\
    \xA2\x03\x02\x01\x00\xA3\x05\xA1\x03\x02\x01\x00\xBE\x10\x04\x0E\x08\x00\x06\x5F\x1F\x04\x00\x00\x1E\x19\x04\x00\x00\x07";
const GET: &[u8] = b"\x00\x01\x00\x10\x00\x01\x00\x0D\xC0\x01\xC1\x00\x46\x00\x00\x60\x03\x0A\xFF\x03\x00";
const STATE: &[u8] = b"\x00\x01\x00\x01\x00\x10\x00\x06\xC4\x01\xC1\x00\x16\x01";

// Returns the bytes of the client: the first frame, and the other one `times` times.
fn talk(first: &[u8], other: &[u8], times: usize) -> Vec<u8> {
    let mut bytes = first.to_vec();
    for _ in 0..times {
        bytes.extend_from_slice(other);
    }
    bytes
}

// The bytes that a new meter writes to a client that sends these in pieces.
fn answers(requests: &[u8], piece: usize) -> Vec<u8> {
    let mut core = Core { device: b"RELAY1".to_vec(), state: 1, mode: 0 };
    let mut out = Vec::new();
    let end = serve(&mut Input { rest: requests, piece }, &mut out, &mut core, b"12345678").unwrap();
    assert_eq!(end, End::Closed);
    out
}

// Returns the nanoseconds of one session.
fn time_of(requests: &[u8], piece: usize) -> u128 {
    let start = Instant::now();
    black_box(answers(black_box(requests), piece));
    start.elapsed().as_nanos()
}

fn main() {
    let argument: Option<usize> = std::env::args().nth(1).and_then(|n| n.parse().ok());
    let times = argument.unwrap_or(10);
    let requests = talk(AARQ, GET, times);
    let expected = talk(AARE, STATE, times);
    println!("{times} reads: {} bytes in, {} bytes out", requests.len(), expected.len());
    println!("answered rightly: {}, and byte by byte: {}", answers(&requests, 1_024) == expected, answers(&requests, 1) == expected);
    if argument.is_some() {
        let divisor = times.max(1) as u128;
        println!("whole {} ns, single {} ns", time_of(&requests, 1_024) / divisor, time_of(&requests, 1) / divisor);
    }
}
