//! Records, the settings of a line, and how records become blocks.

use crate::plain::{End, MAX_UNITS, Text, Unit, is_record_char};

/// The settings of a line.
#[derive(Clone, Copy)]
pub struct Setup {
    pub full: u8,
    pub block_chars: u16,
    pub tries: u8,
    pub waits: u8,
}

#[derive(Clone, Copy, Debug, PartialEq, Eq)]
pub enum RecordError {
    TooLong,
    NotText(usize),
}

/// At most 144 record characters.
pub struct Record {
    chars: Box<[u8]>,
}

impl Record {
    /// The record of characters that are known to be those of a record.
    pub fn of(chars: &[u8]) -> Record {
        Record {
            chars: chars.into(),
        }
    }

    pub fn read(codes: &[u8], full: u8) -> Result<Record, RecordError> {
        if codes.len() > usize::from(full) {
            return Err(RecordError::TooLong);
        }
        match codes.iter().position(|&code| !is_record_char(code)) {
            Some(place) => Err(RecordError::NotText(place)),
            None => Ok(Record::of(codes)),
        }
    }

    pub fn chars(&self) -> &[u8] {
        &self.chars
    }

    fn unit(&self, full: u8) -> Unit<'_> {
        Unit {
            chars: self.chars(),
            em: self.chars.len() < usize::from(full),
        }
    }

    /// What it counts in a block.
    fn cost(&self, full: u8) -> usize {
        let unit = self.unit(full);
        unit.chars.len() + 1 + usize::from(unit.em)
    }
}

/// A block that was sent: how many records it has, and its end.
#[derive(Clone, Copy)]
pub struct Block {
    pub count: usize,
    pub end: End,
}

/// The records that were offered, and how many of them are known to have arrived.
#[derive(Default)]
pub struct Queue {
    records: Vec<Record>,
    known: usize,
}

impl Queue {
    /// False where memory is refused.
    pub fn offer(&mut self, record: Record) -> bool {
        let room = self.records.try_reserve(1).is_ok();
        if room {
            self.records.push(record);
        }
        room
    }

    pub fn offered(&self) -> &[Record] {
        &self.records
    }

    pub fn known(&self) -> usize {
        self.known
    }

    pub fn mark(&mut self, count: usize) {
        self.known += count;
    }

    pub fn is_waiting(&self) -> bool {
        self.known < self.records.len()
    }

    /// The next block of the waiting records.
    pub fn next(&self, setup: &Setup) -> Option<Block> {
        let waiting = &self.records[self.known..];
        let mut room = usize::from(setup.block_chars);
        let mut count = 0;
        for record in waiting.iter().take(MAX_UNITS) {
            let cost = record.cost(setup.full);
            if cost > room {
                break;
            }
            room -= cost;
            count += 1;
        }
        if count == 0 {
            return None;
        }
        let end = if count == waiting.len() {
            End::Etx
        } else {
            End::Etb
        };
        Some(Block { count, end })
    }

    /// The text of a block of the waiting records.
    pub fn text(&self, block: Block, full: u8) -> Text {
        let mut units = [Unit {
            chars: &[],
            em: false,
        }; MAX_UNITS];
        let records = &self.records[self.known..self.known + block.count];
        for (unit, record) in units.iter_mut().zip(records) {
            *unit = record.unit(full);
        }
        Text::holding(&units[..block.count], block.end)
    }
}

/// The records that arrived.
#[derive(Default)]
pub struct Spool {
    records: Vec<Record>,
}

impl Spool {
    /// Room for the records of one more text; false where memory is refused.
    pub fn make_room(&mut self) -> bool {
        self.records.try_reserve(MAX_UNITS).is_ok()
    }

    pub fn store(&mut self, text: &Text) {
        for place in 0..text.count() {
            let unit = text.unit(place);
            if unit.em || !unit.chars.is_empty() {
                self.records.push(Record::of(unit.chars));
            }
        }
    }

    pub fn records(&self) -> &[Record] {
        &self.records
    }
}
