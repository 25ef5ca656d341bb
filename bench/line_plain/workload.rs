//! The workloads for the clock: polls of nothing, and texts of seven records each way.

use crate::line::{Line, LineError};
use crate::plain::{Address, Wire, encode};
use crate::record::Setup;
use crate::report::{self, Digest};
use crate::tributary::Terminal;
use std::error::Error;
use std::time::{Duration, Instant};

/// How what is pending comes to be heard.
#[derive(Clone, Copy)]
pub enum Hearing {
    /// By a call that says that it is heard as it was sent.
    Sent,

    /// As octets that are those that were sent.
    Octets,

    /// As these and one more FF after them, which is no part of the message.
    Padded,
}

/// Records of which seven fill a block of 400: each counts 57.
const RECORD_CHARS: usize = 55;

/// The records of a text.
const RECORDS: usize = 7;

/// How many transmissions a visit of a terminal takes: two calls, two texts, their replies and EOT.
const TRANSMISSIONS: usize = 8;

/// A line and the number of the next record on it.
struct Player {
    line: Line,
    hearing: Hearing,
    octets: Wire,
    record: [u8; RECORD_CHARS],
    number: usize,
    terminal: usize,
}

/// How long a number of events took, and how many octets of memory it took.
pub struct Measured {
    events: usize,
    time: Duration,
    octets: usize,
}

impl Measured {
    pub fn print(&self) {
        let (events, octets) = (self.events, self.octets);
        eprintln!(
            "{events} events, {} ns, {octets} octets",
            self.time.as_nanos()
        );
    }
}

/// Polls of nothing.
pub fn polls(
    terminals: usize,
    events: usize,
    hearing: Hearing,
) -> Result<Measured, Box<dyn Error>> {
    let mut player = Player::new(terminals, hearing)?;
    player.line.silence().map_err(refused)?;
    let started = Instant::now();
    for _ in 0..events {
        player.carry().map_err(refused)?;
    }
    let time = started.elapsed();
    report::print("polls", Digest::new(), &player.line);
    Ok(Measured {
        events,
        time,
        octets: 0,
    })
}

/// Texts of seven records each way, after a history of this many records.
pub fn texts(
    terminals: usize,
    history: usize,
    visits: usize,
    hearing: Hearing,
) -> Result<Measured, Box<dyn Error>> {
    let mut player = Player::new(terminals, hearing)?;
    player.offer().map_err(refused)?;
    player.line.silence().map_err(refused)?;
    let before = resident()?;
    for _ in 0..history.div_ceil(2 * RECORDS) {
        player.visit().map_err(refused)?;
    }
    let octets = resident()?.saturating_sub(before);
    let started = Instant::now();
    for _ in 0..visits {
        player.visit().map_err(refused)?;
    }
    let time = started.elapsed();
    report::print("texts", Digest::new(), &player.line);
    Ok(Measured {
        events: visits * (TRANSMISSIONS + 2 * RECORDS),
        time,
        octets,
    })
}

impl Player {
    fn new(terminals: usize, hearing: Hearing) -> Result<Player, Box<dyn Error>> {
        let setup = Setup {
            full: 80,
            block_chars: 400,
            tries: 3,
            waits: 10,
        };
        let mut stations = Vec::new();
        let mut poll_list = Vec::new();
        for number in 0..terminals {
            stations.push(Terminal {
                poll: address(b'A', number)?,
                selects: vec![address(b'a', number)?],
            });
            poll_list.push(number as u8);
        }
        Ok(Player {
            line: Line::new(setup, &stations, &poll_list),
            hearing,
            octets: Wire::new(),
            record: [b'-'; RECORD_CHARS],
            number: 0,
            terminal: 0,
        })
    }

    fn carry(&mut self) -> Result<(), LineError> {
        match self.hearing {
            Hearing::Sent => return self.line.carry_sent(),
            Hearing::Octets => self.encode_pending(),
            Hearing::Padded => {
                self.encode_pending();
                self.octets.push(0xff);
            }
        }
        self.line.carry(Some(self.octets.octets()))
    }

    fn encode_pending(&mut self) {
        if let Some((_, message)) = self.line.pending() {
            encode(message, &mut self.octets);
        }
    }

    /// The next record: its first characters tell its number.
    fn next_record(&mut self) {
        for place in 0..4 {
            self.record[place] = 0x40 | (self.number >> (6 * place) & 0x3f) as u8;
        }
        self.number += 1;
    }

    /// Seven records at the next terminal, and seven for it.
    fn offer(&mut self) -> Result<(), LineError> {
        for _ in 0..RECORDS {
            self.next_record();
            self.line.offer_at(self.terminal, &self.record)?;
            self.next_record();
            self.line.offer_for(self.terminal, 0, &self.record)?;
        }
        self.terminal = (self.terminal + 1) % self.line.terminals();
        Ok(())
    }

    /// A terminal is selected and polled, and then the next one is called.
    fn visit(&mut self) -> Result<(), LineError> {
        for _ in 1..TRANSMISSIONS {
            self.carry()?;
        }
        self.offer()?;
        self.carry()
    }
}

fn refused(error: LineError) -> String {
    format!("{error:?}")
}

/// A letter and a number below 64 in two characters.
fn address(letter: u8, number: usize) -> Result<Address, String> {
    let codes = [letter + (number / 16) as u8, b'0' + (number % 16) as u8];
    Address::read(&codes).ok_or(String::from("no address"))
}

/// How many octets of memory the process has.
fn resident() -> Result<usize, Box<dyn Error>> {
    let pages = std::fs::read_to_string("/proc/self/statm")?;
    let resident = pages.split(' ').nth(1).ok_or("no resident pages")?;
    Ok(resident.parse::<usize>()? * 4096)
}
