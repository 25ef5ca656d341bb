//! The two calls for C that `bsc_embed` has, over the plain decoder and encoder, so that both sides of the
//! comparison do the same work.

use crate::content::{Content, kind};
use crate::plain::{
    Address, End, Heard, MAX_CHARS, MAX_UNITS, Message, Text, Unit, Wire, decode, encode,
    is_record_char,
};

const ETB: u8 = 0x17;

/// `bsc_decode` of `bsc.h`.
#[inline(never)]
pub extern "C" fn plain_decode(octets: *const u8, len: usize, content: &mut Content) -> u32 {
    // SAFETY: the driver passes a slice's own address and length.
    let octets = unsafe { std::slice::from_raw_parts(octets, len) };
    match &decode(octets) {
        Heard::Whole(message) => put(message, content),
        Heard::Failed => kind::FAILED,
        Heard::Noise => kind::NOISE,
    }
}

fn put(message: &Message, content: &mut Content) -> u32 {
    match message {
        Message::Eot => kind::EOT,
        Message::Call(address) => {
            let codes = address.codes();
            content.address[..codes.len()].copy_from_slice(codes);
            content.address_len = codes.len() as u8;
            kind::CALL
        }
        Message::Enq => kind::ENQ,
        Message::Ack0 => kind::ACK0,
        Message::Ack1 => kind::ACK1,
        Message::Nak => kind::NAK,
        Message::Wack => kind::WACK,
        Message::Rvi => kind::RVI,
        Message::Text(text) => {
            for place in 0..text.count() {
                let unit = text.unit(place);
                let stored = &mut content.units[place];
                stored.chars[..unit.chars.len()].copy_from_slice(unit.chars);
                stored.len = unit.chars.len() as u8;
                stored.em = unit.em as u8;
            }
            content.count = text.count() as u8;
            content.end = if text.end() == End::Etb { ETB } else { 0x03 };
            kind::TEXT
        }
    }
}

/// `bsc_encode` of `bsc.h`.
#[inline(never)]
pub extern "C" fn plain_encode(kind: u32, content: &Content, octets: *mut u8, len: usize) -> usize {
    // SAFETY: the driver passes a slice's own address and length.
    let octets = unsafe { std::slice::from_raw_parts_mut(octets, len) };
    let Some(message) = message_of(kind, content) else {
        return 0;
    };
    let mut wire = Wire::new();
    encode(&message, &mut wire);
    let Some(place) = octets.get_mut(..wire.octets().len()) else {
        return 0;
    };
    place.copy_from_slice(wire.octets());
    wire.octets().len()
}

fn message_of(kind: u32, content: &Content) -> Option<Message> {
    match kind {
        kind::EOT => Some(Message::Eot),
        kind::CALL => {
            let codes = content.address.get(..content.address_len as usize)?;
            Some(Message::Call(Address::read(codes)?))
        }
        kind::ENQ => Some(Message::Enq),
        kind::ACK0 => Some(Message::Ack0),
        kind::ACK1 => Some(Message::Ack1),
        kind::NAK => Some(Message::Nak),
        kind::WACK => Some(Message::Wack),
        kind::RVI => Some(Message::Rvi),
        kind::TEXT => Some(Message::Text(text_of(content)?)),
        _ => None,
    }
}

fn text_of(content: &Content) -> Option<Text> {
    let end = match content.end {
        ETB => End::Etb,
        0x03 => End::Etx,
        _ => return None,
    };
    let stored = content.units.get(..content.count as usize)?;
    let mut units = [Unit {
        chars: &[],
        em: false,
    }; MAX_UNITS];
    for (unit, stored) in units.iter_mut().zip(stored) {
        *unit = Unit {
            chars: stored.chars.get(..stored.len as usize)?,
            em: stored.em != 0,
        };
    }
    text_holding(&units[..stored.len()], end)
}

/// The text of these units, where they are those of a text.
fn text_holding(units: &[Unit], end: End) -> Option<Text> {
    let fits = |unit: &Unit| {
        unit.chars.len() <= MAX_CHARS && unit.chars.iter().all(|&code| is_record_char(code))
    };
    if units.is_empty() || units.len() > MAX_UNITS || !units.iter().all(fits) {
        return None;
    }
    Some(Text::holding(units, end))
}
