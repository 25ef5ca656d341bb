//! Transmissions for the comparison and for the clock: from a generator with a fixed seed, so that each run
//! has the same.

use crate::content::{Content, kind};
use crate::plain_calls::plain_encode;

/// SplitMix64.
pub struct Random(u64);

impl Random {
    pub fn new(seed: u64) -> Random {
        Random(seed)
    }

    pub fn word(&mut self) -> u64 {
        self.0 = self.0.wrapping_add(0x9e37_79b9_7f4a_7c15);
        let mut word = self.0;
        word = (word ^ (word >> 30)).wrapping_mul(0xbf58_476d_1ce4_e5b9);
        word = (word ^ (word >> 27)).wrapping_mul(0x94d0_49bb_1331_11eb);
        word ^ (word >> 31)
    }

    /// A number below the bound.
    pub fn below(&mut self, bound: usize) -> usize {
        (self.word() % bound as u64) as usize
    }

    /// Whether one in this many comes up.
    pub fn one_in(&mut self, many: usize) -> bool {
        self.below(many) == 0
    }

    pub fn octet(&mut self) -> u8 {
        self.word() as u8
    }

    fn record_char(&mut self) -> u8 {
        loop {
            let code = self.octet() & 0x7f;
            if !matches!(code, 0x01..=0x05 | 0x10 | 0x15..=0x17 | 0x19 | 0x1f) {
                return code;
            }
        }
    }
}

fn odd(code: u8) -> u8 {
    if code.count_ones() % 2 == 1 {
        code
    } else {
        code | 0x80
    }
}

/// How a text is made.
pub struct Shape {
    /// How many units.
    pub units: usize,

    /// The most characters of a unit.
    pub most: usize,

    /// Whether each unit has that many.
    pub full: bool,

    /// Before how many in a hundred characters SYN stands as fill.
    pub fill: usize,

    /// Whether an STX may stand after the check of a US.
    pub starts: bool,
}

/// The octets of a text of random characters, from its first SYN to its last check, with this many EM after
/// the characters of each unit.
pub fn text(random: &mut Random, shape: &Shape, ems: impl Fn(&mut Random) -> usize) -> Vec<u8> {
    let mut octets = vec![0x16, 0x16, 0x02];
    for place in 0..shape.units {
        let mut codes = Vec::new();
        if place > 0 && shape.starts && random.one_in(2) {
            codes.push(0x02);
        }
        let len = if shape.full {
            shape.most
        } else {
            random.below(shape.most + 1)
        };
        codes.extend((0..len).map(|_| random.record_char()));
        codes.extend(std::iter::repeat_n(0x19, ems(random)));
        codes.push(if place + 1 < shape.units {
            0x1f
        } else if random.one_in(2) {
            0x17
        } else {
            0x03
        });
        for &code in &codes {
            while random.below(100) < shape.fill {
                octets.push(0x16);
                if shape.fill == 100 {
                    break;
                }
            }
            octets.push(odd(code));
        }
        octets.push(odd(codes.iter().fold(0, |sum, code| sum ^ code)));
    }
    octets
}

/// A text as long as one may be sent: 1,033 octets.
pub fn full_text(random: &mut Random) -> Vec<u8> {
    let shape = Shape {
        units: 7,
        most: 144,
        full: true,
        fill: 0,
        starts: false,
    };
    let mut octets = text(random, &shape, |_| 1);
    octets.push(0xff);
    octets
}

/// A full text in which one bit is turned, of a character after the STX.
pub fn turned_text(random: &mut Random) -> Vec<u8> {
    let mut octets = full_text(random);
    let place = 3 + random.below(octets.len() - 4);
    octets[place] ^= 1 << random.below(8);
    octets
}

/// A full text whose last check has odd parity and is wrong.
pub fn wrong_text(random: &mut Random) -> Vec<u8> {
    let mut octets = full_text(random);
    let check = octets.len() - 2;
    octets[check] ^= 0x03;
    octets
}

/// A text with SYN before each character, made 2,048 octets long by pads before it.
pub fn filled_text(random: &mut Random) -> Vec<u8> {
    let shape = Shape {
        units: 7,
        most: 144,
        full: true,
        fill: 100,
        starts: false,
    };
    let mut octets = text(random, &shape, |_| 0);
    octets.push(0xff);
    let mut padded = vec![0x55; 2048 - octets.len()];
    padded.append(&mut octets);
    padded
}

/// The octets that are sent for a message without a text.
pub fn short(random: &mut Random, number: usize) -> Vec<u8> {
    let mut content = Content::of(0);
    let kind = kind::EOT + (number % 8) as u32;
    random_address(random, &mut content);
    let mut octets = vec![0; 1100];
    let len = plain_encode(kind, &content, octets.as_mut_ptr(), octets.len());
    octets.truncate(len);
    octets
}

fn random_address(random: &mut Random, content: &mut Content) {
    content.address_len = 1 + random.below(7) as u8;
    for code in &mut content.address {
        *code = 0x21 + random.below(0x5e) as u8;
    }
}

/// A transmission for the comparison: well formed in one of the ways of the profile, or nearly so.
pub fn any(random: &mut Random) -> Vec<u8> {
    let mut octets = match random.below(10) {
        0 => {
            let number = random.below(8);
            short(random, number)
        }
        1 => any_call(random),
        2 => any_start(random),
        3 => one_of(random, &[0x16, 0x55, 0xaa, 0xff, 0x02, 0x04, 0x85, 0x10]),
        4 => syn_check(random),
        _ => any_text(random),
    };
    pad(random, &mut octets);
    while random.one_in(4) {
        spoil(random, &mut octets);
    }
    octets
}

/// A call with pads and SYN between its EOT and its address, of zero to eight characters.
fn any_call(random: &mut Random) -> Vec<u8> {
    let mut octets = vec![0x16, 0x04];
    octets.resize(2 + random.below(4), 0xff);
    octets.resize(octets.len() + random.below(4), 0x16);
    for _ in 0..random.below(9) {
        octets.push(odd(0x1f + random.below(0x61) as u8));
    }
    octets.push(0x85);
    octets
}

/// A few random octets after what begins a transmission.
fn any_start(random: &mut Random) -> Vec<u8> {
    let mut octets = vec![0x16; random.below(3)];
    octets.extend([0x02, 0x04, 0x10, 0x85, 0x15].get(random.below(6)));
    octets.extend((0..random.below(6)).map(|_| random.octet()));
    octets
}

/// Up to 2,100 octets of these.
fn one_of(random: &mut Random, set: &[u8]) -> Vec<u8> {
    let few = 1 + random.below(set.len());
    let len = if random.one_in(2) {
        random.below(20)
    } else {
        random.below(2100)
    };
    (0..len).map(|_| set[random.below(few)]).collect()
}

/// A text of one to eight units of up to 145 characters and at times two EM, mostly within the limits.
fn any_text(random: &mut Random) -> Vec<u8> {
    let units = if random.one_in(12) {
        8
    } else {
        1 + random.below(7)
    };
    let most = [0, 3, 20, 143, 144, 144, 145][random.below(7)];
    let fill = [0, 0, 0, 5, 50, 100][random.below(6)];
    let shape = Shape {
        units,
        most,
        full: random.one_in(3),
        fill,
        starts: random.one_in(2),
    };
    text(random, &shape, |random| {
        if random.one_in(20) {
            2
        } else {
            random.below(2)
        }
    })
}

/// A text of one unit whose check is the octet of SYN, with or without another SYN before it.
fn syn_check(random: &mut Random) -> Vec<u8> {
    let mut codes: Vec<u8> = (0..random.below(10))
        .map(|_| random.record_char() | 0x40)
        .collect();
    codes.push(0x03);
    let sum = codes.iter().fold(0x16, |sum, code| sum ^ code);
    codes.insert(0, sum);
    let mut octets = vec![0x16, 0x02];
    octets.extend(codes.iter().map(|&code| odd(code)));
    octets.push(0x16);
    if random.one_in(4) {
        octets.push(0x16);
    }
    octets
}

/// Pads before and after, more than the 2,048 octets at times.
fn pad(random: &mut Random, octets: &mut Vec<u8>) {
    let before = if random.one_in(8) {
        random.below(40)
    } else {
        random.below(3)
    };
    let pads: Vec<u8> = (0..before)
        .map(|_| if random.one_in(2) { 0x55 } else { 0xaa })
        .collect();
    octets.splice(0..0, pads);
    let behind = if random.one_in(8) {
        random.below(40)
    } else {
        random.below(3)
    };
    octets.resize(octets.len() + behind, 0xff);
    if random.one_in(40) {
        octets.resize(2046 + random.below(5), 0xff);
    }
}

/// One change: a bit, an octet, a cut, a piece twice, or a SYN more.
fn spoil(random: &mut Random, octets: &mut Vec<u8>) {
    if octets.is_empty() {
        return;
    }
    let place = random.below(octets.len());
    match random.below(7) {
        0 => octets[place] ^= 1 << random.below(8),
        1 => octets[place] = random.octet(),
        2 => octets.truncate(place),
        3 => drop(octets.remove(place)),
        4 => octets.insert(place, 0x16),
        5 => octets[place] ^= 0x03,
        _ => {
            let piece = octets[place..].to_vec();
            octets.extend(piece);
        }
    }
}

/// The content of a message for encoding: mostly well formed, at times out of a limit.
pub fn any_content(random: &mut Random) -> (u32, Content) {
    let mut content = Content::of(0);
    random_address(random, &mut content);
    random_units(random, &mut content);
    if random.one_in(4) {
        let unit = &mut content.units[random.below(7)];
        match random.below(8) {
            0 => content.address_len = random.octet(),
            1 => content.address[random.below(7)] = random.octet(),
            2 => content.count = random.octet(),
            3 => content.count = random.below(9) as u8,
            4 => content.end = random.octet(),
            5 => unit.len = random.octet(),
            6 => unit.chars[random.below(144)] = random.octet(),
            _ => unit.em = random.octet(),
        }
    }
    let kind = match random.below(10) {
        0..=5 => kind::TEXT,
        6 => kind::CALL,
        7..=8 => random.below(12) as u32,
        _ => random.word() as u32,
    };
    (kind, content)
}

fn random_units(random: &mut Random, content: &mut Content) {
    content.count = 1 + random.below(7) as u8;
    content.end = if random.one_in(2) { 0x17 } else { 0x03 };
    let most = [0, 10, 143, 144, 144, 144, 145][random.below(7)];
    let full = random.one_in(3);
    for unit in &mut content.units {
        unit.len = if full { most } else { random.below(most + 1) } as u8;
        unit.em = random.one_in(2) as u8;
        for char in &mut unit.chars {
            *char = random.record_char();
        }
    }
}
