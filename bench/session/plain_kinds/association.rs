//! The association: the AARQ that opens it, the checks of the AARQ, and the AARE (IEC 62056-5-3).

use crate::data::Bytes;
use crate::services::UNREADABLE;

// The services of the meter, as bits of the conformance block.
pub const GET: u32 = 0x000010;
pub const SET: u32 = 0x000008;
pub const ACTION: u32 = 0x000001;
pub const LISTS: u32 = 0x000200;
pub const GET_IN_BLOCKS: u32 = 0x001000;
const OFFERED: u32 = 0x001E19;

const MAX_PDU: u16 = 1_024;
const MIN_PDU: u16 = 64;

const APPLICATION_CONTEXT: &[u8] = b"\x06\x07\x60\x85\x74\x05\x08\x01\x01";
const LOW_LEVEL: &[u8] = b"\x60\x85\x74\x05\x08\x02\x01";

#[derive(Clone, Copy, PartialEq)]
pub enum Level {
    Public,
    Management,
}

#[derive(Clone, Copy)]
pub struct Link {
    pub port: u16,
    pub level: Level,
    pub conformance: u32,
    pub max_pdu: u16,
}

struct Initiate {
    version: u8,
    conformance: u32,
    max_pdu: u16,
}

struct Aarq<'a> {
    context: &'a [u8],
    mechanism: Option<&'a [u8]>,
    secret: Option<&'a [u8]>,
    initiate: Option<Initiate>,
}

struct Refusal {
    diagnostic: u8,
    user_error: Option<u8>,
}

impl<'a> Bytes<'a> {
    // The next BER field, if it has this tag.
    fn field(&mut self, tag: u8) -> Option<&'a [u8]> {
        if self.0.first() != Some(&tag) {
            return None;
        }
        self.byte()?;
        let count = self.byte()?;
        if count >= 0x80 {
            return None;
        }
        self.take(usize::from(count))
    }
}

fn initiate(bytes: &[u8]) -> Option<Initiate> {
    let mut bytes = Bytes(bytes);
    if bytes.take(4)? != [0x01, 0x00, 0x00, 0x00] {
        return None;
    }
    let version = bytes.byte()?;
    if bytes.take(4)? != [0x5F, 0x1F, 0x04, 0x00] {
        return None;
    }
    let bits = bytes.take(3)?;
    let conformance = u32::from_be_bytes([0, bits[0], bits[1], bits[2]]);
    let max_pdu = bytes.word()?;
    bytes.0.is_empty().then_some(Initiate { version, conformance, max_pdu })
}

fn aarq(payload: &[u8]) -> Option<Aarq<'_>> {
    let mut whole = Bytes(payload);
    let mut fields = Bytes(whole.field(0x60)?);
    let context = fields.field(0xA1)?;
    let requirements = fields.field(0x8A);
    let mechanism = fields.field(0x8B);
    let secret = match fields.field(0xAC) {
        Some(value) => Some(Bytes(value).field(0x80)?),
        None => None,
    };
    let information = Bytes(fields.field(0xBE)?).field(0x04)?;
    let is_whole = fields.0.is_empty() && whole.0.is_empty();
    if !is_whole || requirements.is_some() != mechanism.is_some() {
        return None;
    }
    Some(Aarq { context, mechanism, secret, initiate: initiate(information) })
}

// Whether a payload is an RLRQ: fields that end at its last byte.
pub fn is_release(payload: &[u8]) -> bool {
    let mut whole = Bytes(payload);
    whole.field(0x62).is_some_and(are_fields) && whole.0.is_empty()
}

fn are_fields(bytes: &[u8]) -> bool {
    let mut fields = Bytes(bytes);
    while let Some(tag) = fields.0.first() {
        if fields.field(*tag).is_none() {
            return false;
        }
    }
    true
}

// The association that an AARQ opens, if it is accepted, and the answer.
pub fn open(password: &[u8], source: u16, payload: &[u8]) -> (Option<Link>, Vec<u8>) {
    let Some(aarq) = aarq(payload) else {
        return (None, UNREADABLE.to_vec());
    };
    match judge(password, source, &aarq) {
        Ok(link) => (Some(link), accepted(link)),
        Err(refusal) => (None, refused(&refusal)),
    }
}

fn refusal(diagnostic: u8, user_error: Option<u8>) -> Refusal {
    Refusal { diagnostic, user_error }
}

// The checks of an AARQ, in the order of the refusals.
fn judge(password: &[u8], source: u16, aarq: &Aarq) -> Result<Link, Refusal> {
    if source != 1 && source != 16 {
        return Err(refusal(1, None));
    }
    if aarq.context != APPLICATION_CONTEXT {
        return Err(refusal(2, None));
    }
    let level = match (source, aarq.mechanism, aarq.secret) {
        (_, Some(mechanism), _) if mechanism != LOW_LEVEL => return Err(refusal(11, None)),
        (16, _, _) => Level::Public,
        (_, None, _) => return Err(refusal(14, None)),
        (_, _, Some(secret)) if secret == password => Level::Management,
        _ => return Err(refusal(13, None)),
    };
    let proposal = aarq.initiate.as_ref().ok_or(refusal(1, None))?;
    let Initiate { version, conformance, max_pdu } = *proposal;
    if version < 6 {
        return Err(refusal(1, Some(1)));
    }
    if conformance & OFFERED == 0 {
        return Err(refusal(1, Some(2)));
    }
    if (1..MIN_PDU).contains(&max_pdu) {
        return Err(refusal(1, Some(3)));
    }
    Ok(Link {
        port: source,
        level,
        conformance: conformance & OFFERED,
        max_pdu: if max_pdu == 0 { MAX_PDU } else { max_pdu.min(MAX_PDU) },
    })
}

fn accepted(link: Link) -> Vec<u8> {
    let mut answer = vec![0x61, 0x29, 0xA1, 0x09];
    answer.extend_from_slice(APPLICATION_CONTEXT);
    answer.extend_from_slice(&[0xA2, 3, 2, 1, 0, 0xA3, 5, 0xA1, 3, 2, 1, 0]);
    answer.extend_from_slice(&[0xBE, 0x10, 0x04, 0x0E, 0x08, 0x00, 0x06]);
    answer.extend_from_slice(&[0x5F, 0x1F, 0x04, 0x00]);
    answer.extend_from_slice(&link.conformance.to_be_bytes()[1..]);
    answer.extend_from_slice(&[0x04, 0x00, 0x00, 0x07]);
    answer
}

fn refused(refusal: &Refusal) -> Vec<u8> {
    let size = if refusal.user_error.is_some() { 0x1F } else { 0x17 };
    let mut answer = vec![0x61, size, 0xA1, 0x09];
    answer.extend_from_slice(APPLICATION_CONTEXT);
    answer.extend_from_slice(&[0xA2, 3, 2, 1, 1, 0xA3, 5, 0xA1, 3, 2, 1, refusal.diagnostic]);
    if let Some(error) = refusal.user_error {
        answer.extend_from_slice(&[0xBE, 6, 4, 4, 0x0E, 1, 6, error]);
    }
    answer
}
