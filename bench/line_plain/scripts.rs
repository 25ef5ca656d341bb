//! Random scripts of events of all kinds.

use crate::line::{Line, LineError, Speaker, Way};
use crate::plain::{Address, Wire, encode};
use crate::random::Random;
use crate::record::Setup;
use crate::report::{self, Digest};
use crate::tributary::Terminal;

/// What else may be heard: EOT, ENQ, NAK, ACK0, ACK1, WACK, RVI, and a text whose check fails.
const OTHERS: [&[u8]; 8] = [
    &[0x16, 0x04],
    &[0x16, 0x85],
    &[0x16, 0x15],
    &[0x16, 0x10, 0xb0],
    &[0x16, 0x10, 0x31],
    &[0x16, 0x10, 0x3b],
    &[0x16, 0x10, 0xbc],
    &[0x16, 0x02, 0x85],
];

/// A script as it is played.
struct Script {
    random: Random,
    line: Line,
    full: usize,

    /// Of eight transmissions this many are not heard as they were sent.
    spoiled: usize,

    /// How many ways of spoiling there are.
    ways: usize,

    /// What is pending, and what was pending some time before.
    octets: Vec<u8>,
    earlier: Vec<u8>,
}

/// Plays a number of scripts, and tells what each leaves.
pub fn play(seed: u64, scripts: u64, events: usize) {
    for number in seed..seed + scripts {
        let mut script = Script::new(number);
        let mut digest = Digest::new();
        for _ in 0..events {
            let answer = script.step();
            digest.event(answer, &script.line);
        }
        report::print(&number.to_string(), digest, &script.line);
    }
}

impl Script {
    fn new(seed: u64) -> Script {
        let mut random = Random::new(seed);
        let full = if random.one_in(2) {
            80
        } else {
            1 + random.below(144)
        };
        let block_chars = if random.one_in(2) {
            400
        } else {
            146 + random.below(255)
        };
        let setup = Setup {
            full: full as u8,
            block_chars: block_chars as u16,
            tries: 1 + random.below(3) as u8,
            waits: 1 + random.below(3) as u8,
        };
        let count = 1 + random.below(4);
        let terminals: Vec<Terminal> = (0..count)
            .map(|number| terminal(&mut random, number))
            .collect();
        let entries = 1 + random.below(6);
        let poll_list: Vec<u8> = (0..entries).map(|_| random.below(count) as u8).collect();
        Script {
            line: Line::new(setup, &terminals, &poll_list),
            full,
            spoiled: random.below(8),
            ways: [1, 2, 6][random.below(3)],
            octets: Vec::new(),
            earlier: Vec::new(),
            random,
        }
    }

    /// One event.
    fn step(&mut self) -> Result<(), LineError> {
        let count = self.line.terminals();
        let few = !self.random.one_in(16);
        let terminal = self.random.below(if few { count } else { count + 1 });
        match self.random.below(16) {
            0 | 1 => {
                let record = self.record();
                self.line.offer_at(terminal, &record)
            }
            2 | 3 => {
                let select = self.select(terminal);
                let record = self.record();
                self.line.offer_for(terminal, select, &record)
            }
            4 => self.flag(terminal),
            5 => {
                let select = self.select(terminal);
                let from = self.random.one_in(2);
                let way = if from {
                    Way::FromTerminal
                } else {
                    Way::ToTerminal(select)
                };
                self.line.release(terminal, way)
            }
            6 if self.random.one_in(8) => self.any_turn(),
            7 if self.random.one_in(4) => self.restart(terminal),
            _ => self.turn(),
        }
    }

    /// The number of an address of a terminal, or one more.
    fn select(&mut self, terminal: usize) -> usize {
        let selects = if terminal < self.line.terminals() {
            self.line.addresses(terminal)
        } else {
            1
        };
        let few = !self.random.one_in(16);
        self.random.below(if few { selects } else { selects + 1 })
    }

    fn record(&mut self) -> Vec<u8> {
        let len = if self.random.one_in(2) {
            self.random.below(self.full + 2)
        } else {
            self.random.below(4)
        };
        let mut record: Vec<u8> = (0..len)
            .map(|_| 0x20 + self.random.below(0x5f) as u8)
            .collect();
        if self.random.one_in(32) && len > 0 {
            let place = self.random.below(len);
            record[place] = self.random.octet();
        }
        record
    }

    fn flag(&mut self, terminal: usize) -> Result<(), LineError> {
        match self.random.below(4) {
            0 => {
                let ready = !self.random.one_in(3);
                self.line.set_ready(terminal, ready)
            }
            1 => {
                let polled = !self.random.one_in(3);
                self.line.set_polled(terminal, polled)
            }
            2 => self.line.set_urgent_at(terminal),
            _ => self.line.set_urgent_for(terminal),
        }
    }

    /// The control station or this terminal begins again.
    fn restart(&mut self, terminal: usize) -> Result<(), LineError> {
        let party = if self.random.one_in(3) {
            Speaker::Control
        } else {
            Speaker::Terminal(terminal)
        };
        self.line.restart(party)
    }

    /// What is pending is carried or lost, or a silence passes, also at a wrong time.
    fn any_turn(&mut self) -> Result<(), LineError> {
        match self.random.below(4) {
            0 => self.line.silence(),
            1 => self.line.carry(None),
            2 => self.line.carry_sent(),
            _ => self.carry_each(),
        }
    }

    /// What is pending is carried or lost; where nothing is, a silence passes.
    fn turn(&mut self) -> Result<(), LineError> {
        let Some((speaker, message)) = self.line.pending() else {
            return self.line.silence();
        };
        let by_control = matches!(speaker, Speaker::Control);
        let mut wire = Wire::new();
        encode(message, &mut wire);
        if self.random.one_in(4) {
            std::mem::swap(&mut self.octets, &mut self.earlier);
        }
        self.octets.clear();
        self.octets.extend_from_slice(wire.octets());
        if self.random.below(8) >= self.spoiled {
            return self.line.carry_sent();
        }
        match self.random.below(4) {
            0 => self.line.carry(None),
            1 if by_control => self.carry_each(),
            _ => {
                let heard = self.spoil();
                self.line.carry(Some(&heard))
            }
        }
    }

    /// Each terminal hears what is pending in a way of its own.
    fn carry_each(&mut self) -> Result<(), LineError> {
        let count = self.line.terminals();
        let few = !self.random.one_in(16);
        let mut hearings = Vec::new();
        for _ in 0..if few { count } else { count + 1 } {
            hearings.push(match self.random.below(4) {
                0 => None,
                1 => Some(self.spoil()),
                _ => Some(self.octets.clone()),
            });
        }
        let items: Vec<Option<&[u8]>> = hearings.iter().map(Option::as_deref).collect();
        self.line.carry_each(&items)
    }

    /// What is heard in place of what is pending.
    fn spoil(&mut self) -> Vec<u8> {
        let mut heard = self.octets.clone();
        let place = self.random.below(heard.len().max(1));
        match self.random.below(self.ways) {
            0 => {
                let bit = self.random.below(8);
                if let Some(octet) = heard.get_mut(place) {
                    *octet ^= 1 << bit;
                }
            }
            1 => heard.truncate(place),
            2 => heard.push(0xff),
            3 => heard = self.earlier.clone(),
            4 => heard = OTHERS[self.random.below(8)].to_vec(),
            _ => {
                let octet = self.random.octet();
                if let Some(place) = heard.get_mut(place) {
                    *place = octet;
                }
            }
        }
        heard
    }
}

/// A terminal of one to four addresses.
fn terminal(random: &mut Random, number: usize) -> Terminal {
    let letter = number as u8;
    let poll = address(random, &[b'A' + letter]);
    let selects = 1 + random.below(4);
    let selects = (0..selects).map(|select| address(random, &[b'a' + letter, b'0' + select as u8]));
    Terminal {
        poll,
        selects: selects.collect(),
    }
}

/// An address of these codes and some more.
fn address(random: &mut Random, first: &[u8]) -> Address {
    let mut codes = first.to_vec();
    for _ in 0..random.below(6) {
        codes.push(0x21 + random.below(0x5e) as u8);
    }
    Address::read(&codes).expect("one to seven codes")
}
