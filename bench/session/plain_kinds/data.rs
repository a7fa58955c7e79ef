//! Bytes that are read from the front, and Data (IEC 62056-5-3, A-XDR).

const MAX_ITEMS: usize = 255;

pub enum Data {
    Null,
    Array(Vec<Data>),
    Structure(Vec<Data>),
    Boolean(bool),
    BitString { bits: usize, bytes: Vec<u8> },
    DoubleLong(i32),
    DoubleLongUnsigned(u32),
    OctetString(Vec<u8>),
    VisibleString(Vec<u8>),
    Utf8String(Vec<u8>),
    Integer(i8),
    Long(i16),
    Unsigned(u8),
    LongUnsigned(u16),
    Long64(i64),
    Long64Unsigned(u64),
    Enum(u8),
    DateTime([u8; 12]),
    Date([u8; 5]),
    Time([u8; 4]),
}

// A reader of bytes from the front. `None` is too few bytes, or bytes that mean nothing.
pub struct Bytes<'a>(pub &'a [u8]);

impl<'a> Bytes<'a> {
    pub fn take(&mut self, count: usize) -> Option<&'a [u8]> {
        let (now, later) = self.0.split_at_checked(count)?;
        self.0 = later;
        Some(now)
    }

    pub fn byte(&mut self) -> Option<u8> {
        Some(self.take(1)?[0])
    }

    pub fn array<const N: usize>(&mut self) -> Option<[u8; N]> {
        self.take(N)?.try_into().ok()
    }

    pub fn word(&mut self) -> Option<u16> {
        Some(u16::from_be_bytes(self.array()?))
    }

    // A length or count: one byte below 80 hex, or 81 to 84 and one to four bytes.
    pub fn length(&mut self) -> Option<usize> {
        match self.byte()? {
            short @ 0..=0x7F => Some(usize::from(short)),
            form @ 0x81..=0x84 => {
                let bytes = self.take(usize::from(form - 0x80))?;
                Some(bytes.iter().fold(0, |number, byte| number << 8 | usize::from(*byte)))
            }
            _ => None,
        }
    }

    // A Data with at most `levels` arrays and structures in one another.
    pub fn data(&mut self, levels: usize) -> Option<Data> {
        Some(match self.byte()? {
            0x00 => Data::Null,
            0x01 => Data::Array(self.items(levels)?),
            0x02 => Data::Structure(self.items(levels)?),
            0x03 => Data::Boolean(self.byte()? != 0),
            0x04 => self.bits()?,
            0x05 => Data::DoubleLong(i32::from_be_bytes(self.array()?)),
            0x06 => Data::DoubleLongUnsigned(u32::from_be_bytes(self.array()?)),
            0x09 => Data::OctetString(self.string()?),
            0x0A => Data::VisibleString(self.string()?),
            0x0C => Data::Utf8String(self.string()?),
            0x0F => Data::Integer(i8::from_be_bytes(self.array()?)),
            0x10 => Data::Long(i16::from_be_bytes(self.array()?)),
            0x11 => Data::Unsigned(self.byte()?),
            0x12 => Data::LongUnsigned(self.word()?),
            0x14 => Data::Long64(i64::from_be_bytes(self.array()?)),
            0x15 => Data::Long64Unsigned(u64::from_be_bytes(self.array()?)),
            0x16 => Data::Enum(self.byte()?),
            0x19 => Data::DateTime(self.array()?),
            0x1A => Data::Date(self.array()?),
            0x1B => Data::Time(self.array()?),
            _ => return None,
        })
    }

    fn items(&mut self, levels: usize) -> Option<Vec<Data>> {
        let levels = levels.checked_sub(1)?;
        let count = self.length().filter(|count| *count <= MAX_ITEMS)?;
        let mut items = Vec::new();
        for _ in 0..count {
            items.push(self.data(levels)?);
        }
        Some(items)
    }

    fn string(&mut self) -> Option<Vec<u8>> {
        let count = self.length()?;
        Some(self.take(count)?.to_vec())
    }

    fn bits(&mut self) -> Option<Data> {
        let bits = self.length()?;
        let mut bytes = self.take(bits.div_ceil(8))?.to_vec();
        if bits % 8 > 0 {
            let unused = 8 - bits % 8;
            bytes[bits / 8] = bytes[bits / 8] >> unused << unused;
        }
        Some(Data::BitString { bits, bytes })
    }
}

impl Data {
    pub fn write(&self, out: &mut Vec<u8>) {
        match self {
            Data::Null => out.push(0x00),
            Data::Array(items) => put_items(0x01, items, out),
            Data::Structure(items) => put_items(0x02, items, out),
            Data::Boolean(value) => put(0x03, &[u8::from(*value)], out),
            Data::BitString { bits, bytes } => {
                out.push(0x04);
                put_length(*bits, out);
                out.extend_from_slice(bytes);
            }
            Data::DoubleLong(value) => put(0x05, &value.to_be_bytes(), out),
            Data::DoubleLongUnsigned(value) => put(0x06, &value.to_be_bytes(), out),
            Data::OctetString(bytes) => put_string(0x09, bytes, out),
            Data::VisibleString(bytes) => put_string(0x0A, bytes, out),
            Data::Utf8String(bytes) => put_string(0x0C, bytes, out),
            Data::Integer(value) => put(0x0F, &value.to_be_bytes(), out),
            Data::Long(value) => put(0x10, &value.to_be_bytes(), out),
            Data::Unsigned(value) => put(0x11, &[*value], out),
            Data::LongUnsigned(value) => put(0x12, &value.to_be_bytes(), out),
            Data::Long64(value) => put(0x14, &value.to_be_bytes(), out),
            Data::Long64Unsigned(value) => put(0x15, &value.to_be_bytes(), out),
            Data::Enum(value) => put(0x16, &[*value], out),
            Data::DateTime(bytes) => put(0x19, bytes, out),
            Data::Date(bytes) => put(0x1A, bytes, out),
            Data::Time(bytes) => put(0x1B, bytes, out),
        }
    }
}

pub fn put_length(length: usize, out: &mut Vec<u8>) {
    let bytes = length.to_be_bytes();
    match length {
        0..=0x7F => out.push(length as u8),
        0x80..=0xFF => put(0x81, &bytes[7..], out),
        0x100..=0xFFFF => put(0x82, &bytes[6..], out),
        0x1_0000..=0xFF_FFFF => put(0x83, &bytes[5..], out),
        _ => put(0x84, &bytes[4..], out),
    }
}

fn put(first: u8, bytes: &[u8], out: &mut Vec<u8>) {
    out.push(first);
    out.extend_from_slice(bytes);
}

fn put_string(tag: u8, bytes: &[u8], out: &mut Vec<u8>) {
    out.push(tag);
    put_length(bytes.len(), out);
    out.extend_from_slice(bytes);
}

fn put_items(tag: u8, items: &[Data], out: &mut Vec<u8>) {
    out.push(tag);
    put_length(items.len(), out);
    items.iter().for_each(|item| item.write(out));
}
