//! The same profile in plain Rust, written for this comparison: what a Rust programmer writes who wants it
//! fast and has no proofs to carry. One pass over the octets, one table look-up for each, no crates.
//!
//! It has the public surface of `bsc_frame`: `decode` to a `Heard` by value, `encode` of a `&Message` into a
//! `Wire`.

const MAX_HEARD: usize = 2048;
pub const MAX_UNITS: usize = 7;
pub const MAX_CHARS: usize = 144;

const STX: u8 = 0x02;
const SYN: u8 = 0x16;
const ETB: u8 = 0x17;
const EM: u8 = 0x19;
const US: u8 = 0x1f;
const PAD: u8 = 0xff;

#[derive(Clone, Copy, PartialEq, Eq)]
pub enum End {
    Etb,
    Etx,
}

#[derive(Clone, Copy, PartialEq, Eq)]
pub struct Address {
    codes: [u8; 7],
    len: u8,
}

#[derive(Clone, Copy)]
pub struct Unit<'a> {
    pub chars: &'a [u8],
    pub em: bool,
}

#[derive(Clone, Copy, PartialEq, Eq)]
struct Mark {
    end: u16,
    em: bool,
}

pub struct Text {
    chars: [u8; MAX_UNITS * MAX_CHARS],
    marks: [Mark; MAX_UNITS],
    count: usize,
    end: End,
}

#[derive(PartialEq)]
pub enum Message {
    Eot,
    Call(Address),
    Enq,
    Ack0,
    Ack1,
    Nak,
    Wack,
    Rvi,
    Text(Text),
}

pub enum Heard {
    Whole(Message),
    Failed,
    Noise,
}

/// The octets of one transmission.
pub struct Wire {
    octets: [u8; 1100],
    len: usize,
}

#[derive(Clone, Copy, PartialEq, Eq)]
enum Class {
    Record,
    Syn,
    Em,
    Ending,
    Stx,
    Wrong,
}

/// The class of each octet of the line.
static CLASSES: [Class; 256] = {
    let mut classes = [Class::Wrong; 256];
    let mut octet = 0;
    while octet < 256 {
        classes[octet] = match octet as u8 {
            STX => Class::Stx,
            SYN => Class::Syn,
            EM => Class::Em,
            US | 0x97 | 0x83 => Class::Ending,
            0x01 | 0x04 | 0x85 | 0x10 | 0x15 => Class::Wrong,
            _ if octet.count_ones() % 2 == 0 => Class::Wrong,
            _ => Class::Record,
        };
        octet += 1;
    }
    classes
};

/// The octet that carries each code.
static LINE: [u8; 128] = {
    let mut line = [0; 128];
    let mut code = 0;
    while code < 128 {
        line[code] = to_line(code as u8);
        code += 1;
    }
    line
};

const fn to_line(code: u8) -> u8 {
    if code.count_ones() % 2 == 1 {
        code
    } else {
        code | 0x80
    }
}

pub fn is_record_char(code: u8) -> bool {
    code < 0x80 && CLASSES[LINE[code as usize] as usize] == Class::Record
}

impl Address {
    pub fn read(codes: &[u8]) -> Option<Address> {
        if codes.is_empty()
            || codes.len() > 7
            || !codes.iter().all(|code| (0x21..=0x7e).contains(code))
        {
            return None;
        }
        let mut address = Address {
            codes: [0; 7],
            len: codes.len() as u8,
        };
        address.codes[..codes.len()].copy_from_slice(codes);
        Some(address)
    }

    pub fn codes(&self) -> &[u8] {
        &self.codes[..self.len as usize]
    }
}

impl PartialEq for Text {
    fn eq(&self, other: &Text) -> bool {
        self.end == other.end
            && self.marks[..self.count] == other.marks[..other.count]
            && self.used() == other.used()
    }
}

impl Text {
    fn new() -> Text {
        Text {
            chars: [0; MAX_UNITS * MAX_CHARS],
            marks: [Mark { end: 0, em: false }; MAX_UNITS],
            count: 0,
            end: End::Etx,
        }
    }

    /// The text of units that are known to be those of a text.
    pub fn holding(units: &[Unit], end: End) -> Text {
        let mut text = Text::new();
        let mut len = 0;
        for unit in units {
            text.chars[len..len + unit.chars.len()].copy_from_slice(unit.chars);
            len += unit.chars.len();
            text.marks[text.count] = Mark {
                end: len as u16,
                em: unit.em,
            };
            text.count += 1;
        }
        text.end = end;
        text
    }

    /// The characters of all its units.
    fn used(&self) -> &[u8] {
        let len = match self.marks[..self.count].last() {
            Some(mark) => mark.end as usize,
            None => 0,
        };
        &self.chars[..len]
    }

    pub fn count(&self) -> usize {
        self.count
    }

    pub fn end(&self) -> End {
        self.end
    }

    pub fn unit(&self, place: usize) -> Unit<'_> {
        let start = if place == 0 {
            0
        } else {
            self.marks[place - 1].end
        };
        let mark = self.marks[place];
        Unit {
            chars: &self.chars[start as usize..mark.end as usize],
            em: mark.em,
        }
    }
}

/// What the octets are heard as.
#[inline]
pub fn decode(octets: &[u8]) -> Heard {
    if octets.len() > MAX_HEARD {
        return Heard::Noise;
    }
    let pads = octets
        .iter()
        .take_while(|&&octet| octet == 0x55 || octet == 0xaa)
        .count();
    let octets = &octets[pads..];
    let syns = octets.iter().take_while(|&&octet| octet == SYN).count();
    if syns == 0 {
        return Heard::Noise;
    }
    let mut body = &octets[syns..];
    while let [rest @ .., PAD] = body {
        body = rest;
    }
    match body {
        [STX, units @ ..] => match read_text(units) {
            Some(text) => Heard::Whole(Message::Text(text)),
            None => Heard::Failed,
        },
        [0x04] => Heard::Whole(Message::Eot),
        [0x85] => Heard::Whole(Message::Enq),
        [0x15] => Heard::Whole(Message::Nak),
        [0x10, 0xb0] => Heard::Whole(Message::Ack0),
        [0x10, 0x31] => Heard::Whole(Message::Ack1),
        [0x10, 0x3b] => Heard::Whole(Message::Wack),
        [0x10, 0xbc] => Heard::Whole(Message::Rvi),
        [0x04, rest @ ..] => match read_call(rest) {
            Some(address) => Heard::Whole(Message::Call(address)),
            None => Heard::Noise,
        },
        _ => Heard::Noise,
    }
}

/// The address of a call, after its EOT.
fn read_call(mut octets: &[u8]) -> Option<Address> {
    while let [PAD, rest @ ..] = octets {
        octets = rest;
    }
    while let [SYN, rest @ ..] = octets {
        octets = rest;
    }
    let (&last, address) = octets.split_last()?;
    if last != 0x85 || address.is_empty() || address.len() > 7 {
        return None;
    }
    let mut codes = [0; 7];
    for (code, &octet) in codes.iter_mut().zip(address) {
        if octet.count_ones() % 2 == 0 {
            return None;
        }
        *code = octet & 0x7f;
    }
    Address::read(&codes[..address.len()])
}

/// The text, after its STX.
fn read_text(octets: &[u8]) -> Option<Text> {
    let mut text = Text::new();
    let mut at = 0;
    let mut len = 0;
    while text.count < MAX_UNITS {
        let start = len;
        let mut sum = 0;
        let mut em = false;
        let mut fresh = text.count > 0;
        let ending = loop {
            let octet = *octets.get(at)?;
            at += 1;
            match CLASSES[octet as usize] {
                Class::Record => {
                    if em || len - start == MAX_CHARS {
                        return None;
                    }
                    text.chars[len] = octet & 0x7f;
                    len += 1;
                }
                Class::Syn => continue,
                Class::Em if !em => em = true,
                Class::Stx if fresh => {}
                Class::Ending => break octet,
                _ => return None,
            }
            fresh = false;
            sum ^= octet;
        };
        sum = (sum ^ ending) & 0x7f;
        if *octets.get(at)? != LINE[sum as usize] {
            return None;
        }
        at += 1;
        text.marks[text.count] = Mark {
            end: len as u16,
            em,
        };
        text.count += 1;
        if ending != US {
            text.end = if ending & 0x7f == ETB {
                End::Etb
            } else {
                End::Etx
            };
            return if at == octets.len() { Some(text) } else { None };
        }
    }
    None
}

impl Wire {
    pub fn new() -> Wire {
        Wire {
            octets: [0; 1100],
            len: 0,
        }
    }

    pub fn octets(&self) -> &[u8] {
        &self.octets[..self.len]
    }

    pub fn push(&mut self, octet: u8) {
        self.octets[self.len] = octet;
        self.len += 1;
    }

    fn append(&mut self, octets: &[u8]) {
        self.octets[self.len..self.len + octets.len()].copy_from_slice(octets);
        self.len += octets.len();
    }

    /// Appends the octets that carry the codes, and gives the codes' exclusive or.
    fn append_codes(&mut self, codes: &[u8]) -> u8 {
        let mut sum = 0;
        for (octet, &code) in self.octets[self.len..self.len + codes.len()]
            .iter_mut()
            .zip(codes)
        {
            *octet = LINE[(code & 0x7f) as usize];
            sum ^= code;
        }
        self.len += codes.len();
        sum
    }

    fn append_unit(&mut self, unit: Unit<'_>, ending: u8) {
        let mut sum = self.append_codes(unit.chars);
        if unit.em {
            self.push(EM);
            sum ^= EM;
        }
        self.push(to_line(ending));
        self.push(to_line(sum ^ ending));
    }
}

/// Puts the octets of the message into the wire, in place of what it had.
#[inline]
pub fn encode(message: &Message, wire: &mut Wire) {
    wire.len = 0;
    wire.append(&[SYN, SYN]);
    match message {
        Message::Eot => wire.append(&[0x04]),
        Message::Call(address) => {
            wire.append(&[0x04, PAD, SYN, SYN]);
            wire.append_codes(address.codes());
            wire.push(0x85);
        }
        Message::Enq => wire.append(&[0x85]),
        Message::Ack0 => wire.append(&[0x10, 0xb0]),
        Message::Ack1 => wire.append(&[0x10, 0x31]),
        Message::Nak => wire.append(&[0x15]),
        Message::Wack => wire.append(&[0x10, 0x3b]),
        Message::Rvi => wire.append(&[0x10, 0xbc]),
        Message::Text(text) => {
            wire.push(STX);
            for place in 0..text.count() {
                let ending = if place + 1 < text.count() {
                    US
                } else if text.end() == End::Etb {
                    ETB
                } else {
                    0x03
                };
                wire.append_unit(text.unit(place), ending);
            }
        }
    }
    wire.push(PAD);
}
