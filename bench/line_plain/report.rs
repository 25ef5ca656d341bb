//! What was left on a line, in a line of text that is the same here and in the crate `bench_line`.

use crate::line::{Line, LineError, Speaker, Way};
use crate::plain::{Wire, encode};
use crate::record::RecordError;

/// A digest of numbers and octets.
#[derive(Clone, Copy)]
pub struct Digest {
    sum: u64,
}

impl Digest {
    pub fn new() -> Digest {
        Digest {
            sum: 0xcbf2_9ce4_8422_2325,
        }
    }

    pub fn number(&mut self, number: usize) {
        self.sum = (self.sum ^ number as u64).wrapping_mul(0x0000_0100_0000_01b3);
        self.sum ^= self.sum >> 32;
    }

    pub fn octets(&mut self, octets: &[u8]) {
        self.number(octets.len());
        for &octet in octets {
            self.number(usize::from(octet));
        }
    }

    pub fn sum(&self) -> u64 {
        self.sum
    }

    /// How an event was answered, and what is on the line after it.
    pub fn event(&mut self, answer: Result<(), LineError>, line: &Line) {
        self.number(code(answer));
        match line.pending() {
            None => self.number(0),
            Some((speaker, message)) => {
                match speaker {
                    Speaker::Control => self.number(1),
                    Speaker::Terminal(number) => self.number(2 + number),
                }
                let mut wire = Wire::new();
                encode(message, &mut wire);
                self.octets(wire.octets());
            }
        }
        self.number(usize::from(line.trusted()));
    }
}

/// A number for each answer.
fn code(answer: Result<(), LineError>) -> usize {
    match answer {
        Ok(()) => 0,
        Err(LineError::NothingSent) => 1,
        Err(LineError::NotControl) => 2,
        Err(LineError::WrongCount) => 3,
        Err(LineError::Pending) => 4,
        Err(LineError::NoSuchTerminal) => 5,
        Err(LineError::NoSuchAddress) => 6,
        Err(LineError::Memory) => 7,
        Err(LineError::NotInDoubt) => 8,
        Err(LineError::CountMismatch) => 9,
        Err(LineError::BadRecord(RecordError::TooLong)) => 10,
        Err(LineError::BadRecord(RecordError::NotText(place))) => 11 + place,
    }
}

/// What is left on all channels.
struct Left {
    digest: Digest,
    offered: usize,
    known: usize,
    spooled: usize,
    doubts: usize,
}

impl Left {
    fn channel(&mut self, line: &Line, terminal: usize, way: Way) {
        let known = line.known(terminal, way);
        let in_doubt = line.in_doubt(terminal, way);
        let offered = line.offered(terminal, way).len();
        let spooled = line.spooled(terminal, way);
        self.digest.number(offered);
        self.digest.number(known);
        self.digest.number(usize::from(in_doubt));
        self.digest.number(spooled.len());
        for record in spooled {
            self.digest.octets(record.chars());
        }
        self.offered += offered;
        self.known += known;
        self.spooled += spooled.len();
        self.doubts += usize::from(in_doubt);
    }
}

/// Prints what is left on the line after a history with this digest.
pub fn print(name: &str, digest: Digest, line: &Line) {
    let mut left = Left {
        digest,
        offered: 0,
        known: 0,
        spooled: 0,
        doubts: 0,
    };
    for terminal in 0..line.terminals() {
        left.channel(line, terminal, Way::FromTerminal);
        for select in 0..line.addresses(terminal) {
            left.channel(line, terminal, Way::ToTerminal(select));
        }
    }
    let (offered, known, spooled, doubts) = (left.offered, left.known, left.spooled, left.doubts);
    let trusted = if line.trusted() {
        "trusted"
    } else {
        "not trusted"
    };
    let sum = left.digest.sum();
    println!(
        "{name}: offered {offered}, known {known}, spooled {spooled}, in doubt {doubts}, {trusted}, {sum:016x}"
    );
}
