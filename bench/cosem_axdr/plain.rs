//! The work of `cosem_axdr_bench` in plain Rust: reads and writes a text of 8,192 bytes with 255
//! nested items.
use std::hint::black_box;
use std::time::Instant;

#[derive(Debug)]
enum Data {
    Null,
    Array(Vec<Data>),
    Structure(Vec<Data>),
    Boolean(bool),
    BitString { bits: usize, bytes: Vec<u8> },
    DoubleLong(i32),
    DoubleLongUnsigned(u32),
    OctetString(Vec<u8>),
    VisibleString(Vec<u8>),
    Utf8String(Vec<u8>),
    Integer(i8),
    Long(i16),
    Unsigned(u8),
    LongUnsigned(u16),
    Long64(i64),
    Long64Unsigned(u64),
    Enum(u8),
    DateTime([u8; 12]),
    Date([u8; 5]),
    Time([u8; 4]),
}

#[derive(Debug)]
enum Fault {
    Truncated,
    UnknownTag,
    TooDeep,
    TooLong,
}

struct Reader<'a> {
    rest: &'a [u8],
    room: usize,
}

impl<'a> Reader<'a> {
    // Takes the next `count` bytes.
    fn bytes(&mut self, count: usize) -> Result<&'a [u8], Fault> {
        if self.room < count {
            return Err(Fault::TooLong);
        }
        if self.rest.len() < count {
            return Err(Fault::Truncated);
        }
        let (bytes, rest) = self.rest.split_at(count);
        self.rest = rest;
        self.room -= count;
        Ok(bytes)
    }

    // Takes the next byte.
    fn byte(&mut self) -> Result<u8, Fault> {
        Ok(self.bytes(1)?[0])
    }

    // Takes the next `N` bytes.
    fn array<const N: usize>(&mut self) -> Result<[u8; N], Fault> {
        let mut array = [0; N];
        array.copy_from_slice(self.bytes(N)?);
        Ok(array)
    }

    // Reads a length in A-XDR: one byte below 128, or 81 to 84 and one to four bytes.
    fn length(&mut self) -> Result<usize, Fault> {
        match self.byte()? {
            short @ 0..=0x7F => Ok(usize::from(short)),
            form @ 0x81..=0x84 => Ok(self.bytes(usize::from(form - 0x80))?.iter().fold(0, |n, byte| n * 256 + usize::from(*byte))),
            _ => Err(Fault::TooLong),
        }
    }

    // Reads a length and that number of bytes.
    fn string(&mut self) -> Result<Vec<u8>, Fault> {
        let count = self.length()?;
        Ok(self.bytes(count)?.to_vec())
    }

    // Reads a count and that number of values.
    fn items(&mut self, levels: usize) -> Result<Vec<Data>, Fault> {
        if levels == 0 {
            return Err(Fault::TooDeep);
        }
        let count = self.length()?;
        if count > 255 {
            return Err(Fault::TooLong);
        }
        let mut items = Vec::new();
        for _ in 0..count {
            items.push(self.value(levels - 1)?);
        }
        Ok(items)
    }

    // Reads a bit-string.
    fn bits(&mut self) -> Result<Data, Fault> {
        let bits = self.length()?;
        let mut bytes = self.bytes(bits.div_ceil(8))?.to_vec();
        if bits % 8 > 0 {
            let unused = 8 - bits % 8;
            bytes[bits / 8] = bytes[bits / 8] >> unused << unused;
        }
        Ok(Data::BitString { bits, bytes })
    }

    // Reads a tag and its value, with at most `levels` levels of nesting.
    fn value(&mut self, levels: usize) -> Result<Data, Fault> {
        Ok(match self.byte()? {
            0x00 => Data::Null,
            0x01 => Data::Array(self.items(levels)?),
            0x02 => Data::Structure(self.items(levels)?),
            0x03 => Data::Boolean(self.byte()? != 0),
            0x04 => self.bits()?,
            0x05 => Data::DoubleLong(i32::from_be_bytes(self.array()?)),
            0x06 => Data::DoubleLongUnsigned(u32::from_be_bytes(self.array()?)),
            0x09 => Data::OctetString(self.string()?),
            0x0A => Data::VisibleString(self.string()?),
            0x0C => Data::Utf8String(self.string()?),
            0x0F => Data::Integer(i8::from_be_bytes(self.array()?)),
            0x10 => Data::Long(i16::from_be_bytes(self.array()?)),
            0x11 => Data::Unsigned(self.byte()?),
            0x12 => Data::LongUnsigned(u16::from_be_bytes(self.array()?)),
            0x14 => Data::Long64(i64::from_be_bytes(self.array()?)),
            0x15 => Data::Long64Unsigned(u64::from_be_bytes(self.array()?)),
            0x16 => Data::Enum(self.byte()?),
            0x19 => Data::DateTime(self.array()?),
            0x1A => Data::Date(self.array()?),
            0x1B => Data::Time(self.array()?),
            _ => return Err(Fault::UnknownTag),
        })
    }
}

// Reads a value; returns it and the number of its bytes.
fn read(bytes: &[u8]) -> Result<(Data, usize), Fault> {
    let mut reader = Reader { rest: bytes, room: 8192 };
    let value = reader.value(8)?;
    Ok((value, bytes.len() - reader.rest.len()))
}

// Appends a length in its shortest form.
fn put_length(length: usize, out: &mut Vec<u8>) {
    let bytes = length.to_be_bytes();
    match length {
        0..=0x7F => out.push(length as u8),
        0x80..=0xFF => put(0x81, &bytes[7..], out),
        0x100..=0xFFFF => put(0x82, &bytes[6..], out),
        0x1_0000..=0xFF_FFFF => put(0x83, &bytes[5..], out),
        _ => put(0x84, &bytes[4..], out),
    }
}

// Appends a byte and some bytes.
fn put(first: u8, bytes: &[u8], out: &mut Vec<u8>) {
    out.push(first);
    out.extend_from_slice(bytes);
}

// Appends a tag, a length and the bytes.
fn put_string(tag: u8, bytes: &[u8], out: &mut Vec<u8>) {
    out.push(tag);
    put_length(bytes.len(), out);
    out.extend_from_slice(bytes);
}

// Appends a tag, a count and the values.
fn put_items(tag: u8, items: &[Data], out: &mut Vec<u8>) {
    out.push(tag);
    put_length(items.len(), out);
    for item in items {
        write(item, out);
    }
}

// Appends the encoding of a value.
fn write(value: &Data, out: &mut Vec<u8>) {
    match value {
        Data::Null => out.push(0x00),
        Data::Array(items) => put_items(0x01, items, out),
        Data::Structure(items) => put_items(0x02, items, out),
        Data::Boolean(value) => put(0x03, &[u8::from(*value)], out),
        Data::BitString { bits, bytes } => {
            out.push(0x04);
            put_length(*bits, out);
            out.extend_from_slice(bytes);
        }
        Data::DoubleLong(value) => put(0x05, &value.to_be_bytes(), out),
        Data::DoubleLongUnsigned(value) => put(0x06, &value.to_be_bytes(), out),
        Data::OctetString(bytes) => put_string(0x09, bytes, out),
        Data::VisibleString(bytes) => put_string(0x0A, bytes, out),
        Data::Utf8String(bytes) => put_string(0x0C, bytes, out),
        Data::Integer(value) => put(0x0F, &value.to_be_bytes(), out),
        Data::Long(value) => put(0x10, &value.to_be_bytes(), out),
        Data::Unsigned(value) => put(0x11, &[*value], out),
        Data::LongUnsigned(value) => put(0x12, &value.to_be_bytes(), out),
        Data::Long64(value) => put(0x14, &value.to_be_bytes(), out),
        Data::Long64Unsigned(value) => put(0x15, &value.to_be_bytes(), out),
        Data::Enum(value) => put(0x16, &[*value], out),
        Data::DateTime(bytes) => put(0x19, bytes, out),
        Data::Date(bytes) => put(0x1A, bytes, out),
        Data::Time(bytes) => put(0x1B, bytes, out),
    }
}

// An array of 255 structures of a number, a string, a structure of two numbers, and a string; the
// last is longer, so that the text has 8,192 bytes.
fn sample() -> Vec<u8> {
    let mut text = vec![0x01, 0x81, 0xFF];
    for i in 0..255u8 {
        let longer = if i == 254 { 37 } else { 8 };
        text.extend_from_slice(&[0x02, 0x04, 0x12, 0x00, i, 0x09, longer]);
        text.resize(text.len() + usize::from(longer), i);
        text.extend_from_slice(&[0x02, 0x02, 0x06, 0x00, 0x00, 0x1B, i, 0x11, i]);
        text.extend_from_slice(&[0x09, 0x06, 0x00, 0x00, 0x60, 0x03, 0x0A, 0xFF]);
    }
    text
}

fn main() {
    let text = sample();
    let rounds: u32 = std::env::args().nth(1).and_then(|n| n.parse().ok()).unwrap_or(0);
    let start = Instant::now();
    for _ in 0..rounds {
        drop(black_box(read(black_box(&text)).unwrap()));
    }
    let reading = start.elapsed().as_nanos() as u64 / u64::from(rounds.max(1));
    let (value, len) = read(&text).unwrap();
    let start = Instant::now();
    for _ in 0..rounds {
        let mut out = Vec::new();
        write(black_box(&value), &mut out);
        drop(black_box(out));
    }
    let writing = start.elapsed().as_nanos() as u64 / u64::from(rounds.max(1));
    let mut out = Vec::new();
    write(&value, &mut out);
    println!("{len} bytes read, {} written, {}", out.len(), if out == text { "the same" } else { "not the same" });
    if rounds > 0 {
        println!("read {reading} ns, write {writing} ns");
    }
}
